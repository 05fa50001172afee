#include "address.h"

#include "log.h"

#include <netdb.h>
#include <stdio.h>
#include <string.h>

int address_parse(const char *host, const char *port, int type, struct address *address)
{
    struct addrinfo wanted, *found;
    int problem;

    memset(&wanted, 0, sizeof wanted);
    wanted.ai_family = AF_UNSPEC;
    wanted.ai_socktype = type;
    wanted.ai_flags = AI_NUMERICHOST | AI_NUMERICSERV;
    problem = getaddrinfo(host, port, &wanted, &found);
    if (problem != 0) {
        say("branch: %s port %s is no address: %s", host, port, gai_strerror(problem));
        return -1;
    }
    memset(address, 0, sizeof *address);
    memcpy(&address->at, found->ai_addr, found->ai_addrlen);   /* of one of the two families, as the host is a numeral */
    address->n = found->ai_addrlen;
    freeaddrinfo(found);
    return 0;
}

static int same4(const struct sockaddr_in *a, const struct sockaddr_in *b)
{
    return a->sin_port == b->sin_port && a->sin_addr.s_addr == b->sin_addr.s_addr;
}

static int same6(const struct sockaddr_in6 *a, const struct sockaddr_in6 *b)
{
    return a->sin6_port == b->sin6_port && a->sin6_scope_id == b->sin6_scope_id &&
           memcmp(&a->sin6_addr, &b->sin6_addr, sizeof a->sin6_addr) == 0;
}

int address_same(const struct address *a, const struct address *b)
{
    if (a->at.any.sa_family != b->at.any.sa_family)
        return 0;
    if (a->at.any.sa_family == AF_INET)
        return same4(&a->at.four, &b->at.four);
    if (a->at.any.sa_family == AF_INET6)
        return same6(&a->at.six, &b->at.six);
    return 0;
}

void address_text(const struct address *address, char text[ADDRESS_TEXT])
{
    char host[64], port[8];

    if (getnameinfo(&address->at.any, address->n, host, sizeof host, port, sizeof port,
                    NI_NUMERICHOST | NI_NUMERICSERV) != 0)
        snprintf(text, ADDRESS_TEXT, "an unknown address");
    else if (address->at.any.sa_family == AF_INET6)
        snprintf(text, ADDRESS_TEXT, "[%s]:%s", host, port);
    else
        snprintf(text, ADDRESS_TEXT, "%s:%s", host, port);
}
