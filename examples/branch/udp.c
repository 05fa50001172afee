#include "udp.h"

#include "descriptor.h"
#include "log.h"

#include <errno.h>
#include <string.h>
#include <sys/types.h>
#include <sys/uio.h>
#include <unistd.h>

int udp_open(const struct address *at)
{
    struct address bound = *at;
    char name[ADDRESS_TEXT];
    int fd = socket(at->at.any.sa_family, SOCK_DGRAM, 0);

    address_text(at, name);
    if (fd < 0 || descriptor_prepare(fd) != 0 || bind(fd, &at->at.any, at->n) != 0 ||
        getsockname(fd, &bound.at.any, &bound.n) != 0) {
        say("branch: no listening on %s: %s", name, strerror(errno));
        if (fd >= 0)
            close(fd);
        return -1;
    }
    address_text(&bound, name);
    say("branch: listening for booths on %s", name);
    return fd;
}

int udp_receive(int udp, struct packet *packet)
{
    struct iovec octets = { packet->octets, sizeof packet->octets };
    struct msghdr message;
    ssize_t got;

    memset(&message, 0, sizeof message);
    memset(&packet->from, 0, sizeof packet->from);
    message.msg_name = &packet->from.at;
    message.msg_namelen = sizeof packet->from.at;
    message.msg_iov = &octets;
    message.msg_iovlen = 1;
    got = recvmsg(udp, &message, 0);
    if (got < 0)
        return errno == EINTR || errno == EAGAIN || errno == EWOULDBLOCK ? 0 : -1;
    packet->n = (size_t)got;
    packet->cut = (message.msg_flags & MSG_TRUNC) != 0;
    packet->from.n = message.msg_namelen;
    return 1;
}

int udp_send(int udp, const struct address *to, const uint8_t *packet, size_t n)
{
    ssize_t sent;

    do
        sent = sendto(udp, packet, n, 0, &to->at.any, to->n);
    while (sent < 0 && errno == EINTR);
    return sent < 0 ? -1 : 0;
}
