#include "descriptor.h"

#include "clock.h"

#include <errno.h>
#include <fcntl.h>
#include <poll.h>
#include <sys/types.h>
#include <unistd.h>

int descriptor_close_in_children(int fd)
{
    return fcntl(fd, F_SETFD, FD_CLOEXEC) < 0 ? -1 : 0;
}

int descriptor_prepare(int fd)
{
    int flags = fcntl(fd, F_GETFL);

    if (flags < 0 || fcntl(fd, F_SETFL, flags | O_NONBLOCK) < 0)
        return -1;
    return descriptor_close_in_children(fd);
}

/* 1 if a call that failed is to be made again: it was interrupted, or the descriptor is ready now. */
static int again(int fd, short events, int64_t moment)
{
    struct pollfd wait = { fd, events, 0 };
    int ready;

    if (errno == EINTR)
        return 1;
    if (errno != EAGAIN && errno != EWOULDBLOCK)
        return 0;
    ready = poll(&wait, 1, until(moment));
    if (ready == 0)
        errno = ETIMEDOUT;
    return ready > 0 || (ready < 0 && errno == EINTR);
}

int write_whole(int fd, const uint8_t *octets, size_t n, int64_t moment)
{
    while (n > 0) {
        ssize_t done = write(fd, octets, n);

        if (done < 0) {
            if (!again(fd, POLLOUT, moment))
                return -1;
            continue;
        }
        octets += done;
        n -= (size_t)done;
    }
    return 0;
}

int read_whole(int fd, uint8_t *octets, size_t n, int64_t moment)
{
    while (n > 0) {
        ssize_t done = read(fd, octets, n);

        if (done < 0) {
            if (!again(fd, POLLIN, moment))
                return -1;
            continue;
        }
        if (done == 0) {
            errno = EPIPE;
            return -1;
        }
        octets += done;
        n -= (size_t)done;
    }
    return 0;
}
