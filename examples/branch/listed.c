/* One line of the list of booths. */
#include "list.h"

#include <arpa/inet.h>
#include <string.h>

/* In front of an IPv4 address. */
static const uint8_t mapped[LISTED_HOST - 4] = { 0, 0, 0, 0, 0, 0, 0, 0, 0, 0, 0xFF, 0xFF };

/* Cuts the word off the front of a text, and the blanks and tabs behind it; an empty word where there is none. */
static char *cut_word(char **text)
{
    char *word = *text, *end = word + strcspn(word, " \t");

    *text = end + strspn(end, " \t");
    *end = '\0';
    return word;
}

/* Without the blanks and tabs at its end. */
static char *cut_end(char *text)
{
    char *end = text + strlen(text);

    while (end > text && (end[-1] == ' ' || end[-1] == '\t'))
        end--;
    *end = '\0';
    return text;
}

/* A decimal number from least to most, in at most so many digits. 0, or -1. */
static int number(const char *word, size_t digits, uint32_t least, uint32_t most, uint32_t *value)
{
    uint64_t sum = 0;
    size_t i, n = strlen(word);

    if (n == 0 || n > digits || strspn(word, "0123456789") != n)
        return -1;
    for (i = 0; i < n; i++)
        sum = sum * 10 + (uint64_t)(word[i] - '0');
    *value = (uint32_t)sum;
    return sum < least || sum > most ? -1 : 0;
}

static int host_four(const char *text, uint8_t host[LISTED_HOST])
{
    memcpy(host, mapped, sizeof mapped);
    return inet_pton(AF_INET, text, host + sizeof mapped) == 1 ? 0 : -1;
}

static int host_six(const char *text, uint8_t host[LISTED_HOST])
{
    return inet_pton(AF_INET6, text, host) == 1 ? 0 : -1;
}

/* A port, behind the colon at the end of the host, which is cut there. */
static int port(char *colon, struct listed *listed)
{
    uint32_t value;

    if (number(colon + 1, 5, 1, 65535, &value) != 0)
        return -1;
    *colon = '\0';
    listed->port = (uint16_t)value;
    return 0;
}

/* [2001:db8::1]:5004, or without a port. */
static int in_brackets(char *word, struct listed *listed)
{
    char *end = strchr(word, ']');

    if (end == NULL || (end[1] != '\0' && (end[1] != ':' || port(end + 1, listed) != 0)))
        return -1;
    *end = '\0';
    return host_six(word + 1, listed->host);
}

/* 192.0.2.11, 192.0.2.11:5004, 2001:db8::1 or [2001:db8::1]:5004. */
static int address(char *word, struct listed *listed)
{
    char *colon = strchr(word, ':');

    if (word[0] == '[')
        return in_brackets(word, listed);
    if (colon != NULL && colon != strrchr(word, ':'))
        return host_six(word, listed->host);
    if (colon != NULL && port(colon, listed) != 0)
        return -1;
    return host_four(word, listed->host);
}

/* How many octets the character at the front of a text has, in UTF-8 (RFC 3629). 0 for what is none, and for a control
 * character. The text's end is a zero, so nothing behind it is looked at. */
static size_t character(const char *text)
{
    static const uint32_t least[] = { 0, 0, 0x80, 0x800, 0x10000 };
    unsigned first = (unsigned char)text[0];
    size_t i, n = first < 0x80 ? 1 : first >> 5 == 0x06 ? 2 : first >> 4 == 0x0E ? 3 : first >> 3 == 0x1E ? 4 : 0;
    uint32_t value = n == 1 ? first : first & (0x7Fu >> n);

    for (i = 1; i < n; i++) {
        if (((unsigned char)text[i] & 0xC0) != 0x80)
            return 0;
        value = value << 6 | ((unsigned char)text[i] & 0x3F);
    }
    if (value < least[n] || value > 0x10FFFF || (value >= 0xD800 && value < 0xE000))
        return 0;
    return value < 0x20 || (value >= 0x7F && value < 0xA0) ? 0 : n;
}

static int is_name(const char *text)
{
    size_t n;

    while (*text != '\0') {
        if ((n = character(text)) == 0)
            return 0;
        text += n;
    }
    return 1;
}

const char *listed_read(char *line, struct listed *listed)
{
    char *first = cut_word(&line), *second = cut_word(&line), *name = cut_end(line);

    memset(listed, 0, sizeof *listed);
    if (address(first, listed) != 0)
        return "no numeral address, or no port from 1 to 65535 behind it";
    if (number(second, 10, 0, UINT32_MAX, &listed->endpoint) != 0)
        return "no endpoint number from 0 to 4294967295";
    if (name[0] == '\0')
        return "no name";
    if (strlen(name) > LISTED_NAME)
        return "a name above 63 octets";
    if (!is_name(name))
        return "a name that is not UTF-8, or has a control character";
    memcpy(listed->name, name, strlen(name));
    return NULL;
}

void listed_address(const struct address *address, uint8_t host[LISTED_HOST], uint16_t *port)
{
    if (address->at.any.sa_family == AF_INET) {
        memcpy(host, mapped, sizeof mapped);
        memcpy(host + sizeof mapped, &address->at.four.sin_addr, 4);
        *port = ntohs(address->at.four.sin_port);
    } else {
        memcpy(host, &address->at.six.sin6_addr, LISTED_HOST);
        *port = ntohs(address->at.six.sin6_port);
    }
}
