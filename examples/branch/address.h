/* Addresses of booths and of the key distributor: IPv4 or IPv6, with a port. */
#ifndef BRANCH_ADDRESS_H
#define BRANCH_ADDRESS_H

#include <netinet/in.h>
#include <sys/socket.h>

struct address {
    union {
        struct sockaddr any;
        struct sockaddr_in four;
        struct sockaddr_in6 six;
    } at;
    socklen_t n;
};

enum { ADDRESS_TEXT = 80 };

/* From numerals alone: a name would have to be asked for, and the loop would wait. 0, or -1 and a line in the log. */
int address_parse(const char *host, const char *port, int type, struct address *address);

/* 1 if both are the same host and port. */
int address_same(const struct address *a, const struct address *b);

/* 127.0.0.1:5004 or [::1]:5004. */
void address_text(const struct address *address, char text[ADDRESS_TEXT]);

#endif
