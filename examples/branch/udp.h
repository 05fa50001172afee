/* The booths' side of the network: one UDP socket. */
#ifndef BRANCH_UDP_H
#define BRANCH_UDP_H

#include "address.h"

#include <stddef.h>
#include <stdint.h>

/* Longer than any DTLS packet that fits a message, and than any media packet of a usual network. */
enum { UDP_PACKET = 4096 };

struct packet {
    uint8_t octets[UDP_PACKET];
    size_t n;
    int cut;               /* 1 if it was longer: its end is lost */
    struct address from;
};

/* A socket that listens there, or -1 and a line in the log. Port 0 lets the system choose; the log says which. */
int udp_open(const struct address *at);

/* One packet: 1; 0 if there is none now; -1 with errno. */
int udp_receive(int udp, struct packet *packet);

/* 0, or -1 with errno: the packet is lost, as any may be, and DTLS sends it again. */
int udp_send(int udp, const struct address *to, const uint8_t *packet, size_t n);

#endif
