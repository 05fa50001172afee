/*
 * TLS belongs here and is not here. RFC 9185, section 5.2, wants it, with both sides authenticated: its handshake comes
 * after tunnel_connected, and read and write below become its own. Nothing else in this program touches the
 * connection's octets, but for the last write in main.c.
 */
#include "tunnel.h"

#include "descriptor.h"
#include "wipe.h"

#include <errno.h>
#include <netinet/in.h>
#include <netinet/tcp.h>
#include <poll.h>
#include <string.h>
#include <unistd.h>

void tunnel_init(struct tunnel *tunnel)
{
    memset(tunnel, 0, sizeof *tunnel);
    tunnel->state = TUNNEL_CLOSED;
    tunnel->fd = -1;
}

/* Messages are small and waited for, so each goes out at once; and a peer that is gone without a word is noticed. */
static int prepare(int fd)
{
    const int on = 1;

    if (setsockopt(fd, IPPROTO_TCP, TCP_NODELAY, &on, sizeof on) != 0 ||
        setsockopt(fd, SOL_SOCKET, SO_KEEPALIVE, &on, sizeof on) != 0)
        return -1;
    return descriptor_prepare(fd);
}

int tunnel_connect(struct tunnel *tunnel, const struct address *to)
{
    int problem, fd = socket(to->at.any.sa_family, SOCK_STREAM, 0);

    if (fd < 0)
        return -1;
    if (prepare(fd) == 0) {
        tunnel->fd = fd;
        tunnel->state = TUNNEL_CONNECTING;
        /* An interrupted connect goes on by itself, like one that was begun. */
        if (connect(fd, &to->at.any, to->n) == 0 || errno == EINPROGRESS || errno == EINTR)
            return 0;
    }
    problem = errno;
    close(fd);
    tunnel_init(tunnel);
    errno = problem;
    return -1;
}

int tunnel_connected(struct tunnel *tunnel)
{
    int problem = 0;
    socklen_t n = sizeof problem;

    if (getsockopt(tunnel->fd, SOL_SOCKET, SO_ERROR, &problem, &n) != 0)
        return -1;
    if (problem != 0) {
        errno = problem;
        return -1;
    }
    tunnel->state = TUNNEL_CONNECTED;
    return 0;
}

short tunnel_events(const struct tunnel *tunnel)
{
    if (tunnel->state == TUNNEL_CONNECTING)
        return POLLOUT;
    return tunnel->out_n > 0 ? POLLIN | POLLOUT : POLLIN;
}

/* 0 for a failure that is none: nothing there now. */
static int failed(void)
{
    return errno == EINTR || errno == EAGAIN || errno == EWOULDBLOCK ? 0 : -1;
}

int tunnel_fill(struct tunnel *tunnel)
{
    ssize_t got = read(tunnel->fd, tunnel->in + tunnel->in_n, TUNNEL_IN - tunnel->in_n);

    if (got < 0)
        return failed();
    if (got == 0) {
        errno = 0;
        return -1;
    }
    tunnel->in_n += (size_t)got;
    return 1;
}

int tunnel_flush(struct tunnel *tunnel)
{
    ssize_t put;

    if (tunnel->out_n == 0)
        return 0;
    put = write(tunnel->fd, tunnel->out, tunnel->out_n);
    if (put < 0)
        return failed();
    tunnel->out_n -= (size_t)put;
    memmove(tunnel->out, tunnel->out + put, tunnel->out_n);
    return 0;
}

int tunnel_queue(struct tunnel *tunnel, const uint8_t *message, size_t n, size_t spare)
{
    if (TUNNEL_OUT - tunnel->out_n < n + spare)
        return -1;
    memcpy(tunnel->out + tunnel->out_n, message, n);
    tunnel->out_n += n;
    return 0;
}

/* What is dropped may have been keys: nothing of it stays behind the rest. */
void tunnel_drop(struct tunnel *tunnel, size_t n)
{
    tunnel->in_n -= n;
    memmove(tunnel->in, tunnel->in + n, tunnel->in_n);
    wipe(tunnel->in + tunnel->in_n, n);
}

void tunnel_close(struct tunnel *tunnel)
{
    if (tunnel->fd >= 0)
        close(tunnel->fd);
    wipe(tunnel->in, sizeof tunnel->in);
    tunnel_init(tunnel);
}
