/*
 * Linked into the branch by the tests (-Wl,--wrap=...): system calls that are interrupted, not ready, or done in part,
 * as any may be at any time. A quarter of the calls is interrupted, and every connect that is not done at once; of the
 * other reads, writes and recvmsgs on a descriptor that does not wait, a quarter finds nothing ready; read, write and
 * getrandom move three octets at most. Which ones is chance, the same in every run. The last line of the log says how
 * many.
 */
#define _GNU_SOURCE
#include <errno.h>
#include <fcntl.h>
#include <poll.h>
#include <stdio.h>
#include <sys/socket.h>
#include <sys/types.h>
#include <sys/wait.h>

enum { PIECE = 3 };

ssize_t __real_read(int fd, void *octets, size_t n);
ssize_t __real_write(int fd, const void *octets, size_t n);
int __real_poll(struct pollfd *fds, nfds_t n, int limit);
ssize_t __real_recvmsg(int fd, struct msghdr *message, int flags);
ssize_t __real_sendto(int fd, const void *octets, size_t n, int flags, const struct sockaddr *to, socklen_t to_n);
ssize_t __real_recv(int fd, void *octets, size_t n, int flags);
ssize_t __real_send(int fd, const void *octets, size_t n, int flags);
ssize_t __real_getrandom(void *octets, size_t n, unsigned flags);
pid_t __real_waitpid(pid_t pid, int *status, int options);
int __real_connect(int fd, const struct sockaddr *to, socklen_t n);

static unsigned long interrupted, unready, cut;

__attribute__((destructor)) static void tell(void)
{
    fprintf(stderr, "interrupted %lu calls, found nothing ready in %lu, cut %lu\n", interrupted, unready, cut);
}

/* 0 to 3, by chance. */
static unsigned quarter(void)
{
    static unsigned long long number = 1;

    number = number * 6364136223846793005u + 1442695040888963407u;
    return (unsigned)(number >> 62);
}

static int interrupt(void)
{
    if (quarter() != 0)
        return 0;
    interrupted++;
    errno = EINTR;
    return 1;
}

static int no_wait(int fd)
{
    return (fcntl(fd, F_GETFL) & O_NONBLOCK) != 0;
}

/* 1 if the call fails this time. */
static int fails(int fd)
{
    if (interrupt())
        return 1;
    if (quarter() != 0 || !no_wait(fd))
        return 0;
    unready++;
    errno = EAGAIN;
    return 1;
}

static size_t piece(size_t n)
{
    if (n <= PIECE)
        return n;
    cut++;
    return PIECE;
}

ssize_t __wrap_read(int fd, void *octets, size_t n)
{
    return fails(fd) ? -1 : __real_read(fd, octets, piece(n));
}

ssize_t __wrap_write(int fd, const void *octets, size_t n)
{
    return fails(fd) ? -1 : __real_write(fd, octets, piece(n));
}

int __wrap_poll(struct pollfd *fds, nfds_t n, int limit)
{
    return interrupt() ? -1 : __real_poll(fds, n, limit);
}

ssize_t __wrap_recvmsg(int fd, struct msghdr *message, int flags)
{
    return fails(fd) ? -1 : __real_recvmsg(fd, message, flags);
}

ssize_t __wrap_sendto(int fd, const void *octets, size_t n, int flags, const struct sockaddr *to, socklen_t to_n)
{
    return interrupt() ? -1 : __real_sendto(fd, octets, n, flags, to, to_n);
}

ssize_t __wrap_recv(int fd, void *octets, size_t n, int flags)
{
    return interrupt() ? -1 : __real_recv(fd, octets, n, flags);
}

ssize_t __wrap_send(int fd, const void *octets, size_t n, int flags)
{
    return interrupt() ? -1 : __real_send(fd, octets, n, flags);
}

ssize_t __wrap_getrandom(void *octets, size_t n, unsigned flags)
{
    return interrupt() ? -1 : __real_getrandom(octets, piece(n), flags);
}

pid_t __wrap_waitpid(pid_t pid, int *status, int options)
{
    return interrupt() ? -1 : __real_waitpid(pid, status, options);
}

/* An interrupted connect goes on by itself. */
int __wrap_connect(int fd, const struct sockaddr *to, socklen_t n)
{
    int done = __real_connect(fd, to, n);

    if (done == 0 || errno != EINPROGRESS)
        return done;
    interrupted++;
    errno = EINTR;
    return -1;
}
