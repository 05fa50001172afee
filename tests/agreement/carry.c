/* Carries the datagrams of a DTLS client and a DTLS server through the library: a Media Distributor and a key distributor
 * in one program, with a stream between them that gives its octets in pieces of any size.
 *
 *     carry PORT      PORT of the server on 127.0.0.1; prints its own port for the client, and carries until its
 *                     standard input ends
 *
 * Every datagram must be sorted as DTLS, and come out of the tunnel as it went in. */
#include <arpa/inet.h>
#include <poll.h>
#include <shawm.h>
#include <stdio.h>
#include <stdlib.h>
#include <string.h>
#include <sys/socket.h>
#include <unistd.h>

#define WAITING 64   /* datagrams that may be under way in one direction */

/* One end of the tunnel: its datagrams, its octets from the stream, and what must come out of them. */
struct end {
    const char *name;
    int datagrams, stream;
    uint8_t kept[SHAWM_MESSAGE_LIMIT];
    size_t kept_n;
    uint8_t sent[WAITING][SHAWM_DTLS_LIMIT];
    size_t sent_n[WAITING];
    unsigned int sent_count, came_count;
};

/* A version 4 UUID, as RFC 9185 asks for. */
static const uint8_t identifier[SHAWM_IDENTIFIER_OCTETS] = {
    0x9c, 0x1d, 0x02, 0x6f, 0xb8, 0x40, 0x4e, 0x7a, 0x8f, 0x55, 0x31, 0xc0, 0x6d, 0xe9, 0x12, 0x84
};

static void fail(const char *what, const struct end *end)
{
    fprintf(stderr, "carry: %s: %s\n", end->name, what);
    exit(1);
}

static void require(int holds, const char *what, const struct end *end)
{
    if (!holds)
        fail(what, end);
}

/* A datagram from outside goes into the tunnel. */
static void wrap(struct end *end, const uint8_t *packet, size_t n)
{
    uint8_t out[SHAWM_MESSAGE_LIMIT + 1];
    uint32_t written;

    memset(out, 0xEE, sizeof out);
    require(shawm_sort(packet, n) == SHAWM_KIND_DTLS, "a datagram is not sorted as DTLS", end);
    written = shawm_write_tunneled_dtls(identifier, sizeof identifier, packet, n, out, sizeof out);
    require(written == 21 + n, "a datagram is not wrapped", end);
    require(out[written] == 0xEE, "an octet behind the message was written", end);
    require(end->sent_count - end->came_count < WAITING, "too many datagrams under way", end);
    memcpy(end->sent[end->sent_count % WAITING], packet, n);
    end->sent_n[end->sent_count % WAITING] = n;
    end->sent_count++;
    require(write(end->stream, out, written) == (ssize_t)written, "the stream is full", end);
}

/* A message from the tunnel goes outside, as the datagram that the other end took in. */
static void unwrap(struct end *end, struct end *other, const struct shawm_message *message)
{
    size_t i = other->came_count % WAITING;

    require(message->answer == SHAWM_TUNNELED_DTLS, "a message is not TunneledDtls", end);
    require(other->came_count != other->sent_count, "a message that nobody sent", end);
    require(message->identifier.n == sizeof identifier, "the identifier's length", end);
    require(memcmp(message->identifier.at, identifier, sizeof identifier) == 0, "another identifier", end);
    require(message->dtls.n == other->sent_n[i], "the length of the DTLS octets", end);
    require(memcmp(message->dtls.at, other->sent[i], message->dtls.n) == 0, "the DTLS octets changed", end);
    other->came_count++;
    /* The datagram may find nobody, as one may on any network. */
    (void)!send(end->datagrams, message->dtls.at, message->dtls.n, 0);
}

static void from_datagrams(struct end *end)
{
    uint8_t packet[SHAWM_DTLS_LIMIT + 1];   /* one more, to see a longer one */
    struct sockaddr_in from;
    socklen_t size = sizeof from;
    ssize_t n = recvfrom(end->datagrams, packet, sizeof packet, 0, (struct sockaddr *)&from, &size);

    if (n < 0)
        return;   /* the other side is gone; its answer to us is an error here */
    /* The client is known from its first datagram on. */
    (void)!connect(end->datagrams, (struct sockaddr *)&from, size);
    wrap(end, packet, (size_t)n);
}

/* A piece of the stream; its size changes from one to the next. */
static void from_stream(struct end *end, struct end *other)
{
    static unsigned int turn = 0;
    struct shawm_message message;
    size_t room = sizeof end->kept - end->kept_n, piece = 1 + turn++ * 37 % 211;
    ssize_t n = read(end->stream, end->kept + end->kept_n, piece < room ? piece : room);

    require(n > 0, "the stream ended", end);
    end->kept_n += (size_t)n;
    while (shawm_read_message(end->kept, end->kept_n, &message) != SHAWM_MORE_NEEDED) {
        unwrap(end, other, &message);
        end->kept_n -= message.taken;
        memmove(end->kept, end->kept + message.taken, end->kept_n);
    }
}

static struct sockaddr_in loopback(unsigned int port)
{
    struct sockaddr_in address;

    memset(&address, 0, sizeof address);
    address.sin_family = AF_INET;
    address.sin_port = htons((uint16_t)port);
    address.sin_addr.s_addr = htonl(INADDR_LOOPBACK);
    return address;
}

static void open_ends(struct end *booth, struct end *server, unsigned int port)
{
    struct sockaddr_in any = loopback(0), to = loopback(port);
    socklen_t size = sizeof any;
    int stream[2];

    booth->datagrams = socket(AF_INET, SOCK_DGRAM, 0);
    server->datagrams = socket(AF_INET, SOCK_DGRAM, 0);
    require(bind(booth->datagrams, (struct sockaddr *)&any, sizeof any) == 0, "bind", booth);
    require(getsockname(booth->datagrams, (struct sockaddr *)&any, &size) == 0, "getsockname", booth);
    require(connect(server->datagrams, (struct sockaddr *)&to, sizeof to) == 0, "connect", server);
    require(socketpair(AF_UNIX, SOCK_STREAM, 0, stream) == 0, "socketpair", server);
    booth->stream = stream[0];
    server->stream = stream[1];
    printf("%u\n", ntohs(any.sin_port));
    fflush(stdout);
}

int main(int argc, char **argv)
{
    static struct end booth, server;

    booth.name = "from the booth";
    server.name = "from the key distributor";
    if (argc != 2)
        return 2;
    open_ends(&booth, &server, (unsigned int)atoi(argv[1]));
    for (;;) {
        struct pollfd on[5] = { { 0, POLLIN, 0 }, { booth.datagrams, POLLIN, 0 }, { server.datagrams, POLLIN, 0 },
                                { booth.stream, POLLIN, 0 }, { server.stream, POLLIN, 0 } };

        require(poll(on, 5, 20000) > 0, "nothing came for 20 seconds", &booth);
        if (on[1].revents)
            from_datagrams(&booth);
        if (on[2].revents)
            from_datagrams(&server);
        if (on[3].revents)
            from_stream(&booth, &server);
        if (on[4].revents)
            from_stream(&server, &booth);
        if (on[0].revents && !on[3].revents && !on[4].revents)
            break;
    }
    printf("%u datagrams up, %u down, all as they were sent\n", booth.came_count, server.came_count);
    return booth.came_count == 0 || server.came_count == 0;
}
