#include "../control.h"

#include "../log.h"
#include "../refusal.h"
#include "../wipe.h"

#include <errno.h>
#include <stdio.h>
#include <stdlib.h>
#include <string.h>
#include <sys/socket.h>

const char *const control_option = "--control";

enum { REQUEST = 512, ANSWER = 160, WORDS = 6, KEPT = 8, FIELD = 32 };

static struct {
    int used;
    uint32_t endpoint;
    struct record record;
} kept[KEPT];

/* The value of a hexadecimal digit, or -1. */
static int digit(char c)
{
    const char *digits = "0123456789abcdef0123456789ABCDEF", *at = c == '\0' ? NULL : strchr(digits, c);

    return at == NULL ? -1 : (int)(at - digits) % 16;
}

/* Octets from hexadecimal; answers how many, or -1. */
static int octets_of(const char *hex, uint8_t octets[FIELD])
{
    int n = 0;

    while (*hex != '\0') {
        int high = digit(hex[0]), low = high < 0 ? -1 : digit(hex[1]);

        if (low < 0 || n == FIELD)
            return -1;
        octets[n++] = (uint8_t)(high * 16 + low);
        hex += 2;
    }
    return n;
}

/* 0 if all n octets are the same; takes as long for every octet. */
static unsigned difference(const uint8_t *a, const uint8_t *b, size_t n)
{
    unsigned all = 0;
    size_t i;

    for (i = 0; i < n; i++)
        all |= a[i] ^ b[i];
    return all;
}

static int field_is(const struct record *record, enum record_field field, const char *hex)
{
    uint8_t octets[FIELD] = { 0 };
    int n = octets_of(hex, octets);
    int same = n > 0 && (size_t)n == record_length(record, field) &&
               difference(octets, record_octets(record, field), (size_t)n) == 0;

    wipe(octets, sizeof octets);
    return same;
}

static void compare(const struct record *record, char **fields, char answer[ANSWER])
{
    int same = record_is_keyed(record);

    same &= field_is(record, RECORD_CLIENT_KEY, fields[0]);
    same &= field_is(record, RECORD_SERVER_KEY, fields[1]);
    same &= field_is(record, RECORD_CLIENT_SALT, fields[2]);
    same &= field_is(record, RECORD_SERVER_SALT, fields[3]);
    snprintf(answer, ANSWER, same ? "match" : "differs");
}

static void look(const struct record *record, char answer[ANSWER])
{
    if (!record_is_keyed(record))
        snprintf(answer, ANSWER, "open");
    else
        snprintf(answer, ANSWER, "keyed, profile 0x%04x, keys of %zu and %zu octets, salts of %zu and %zu, MKI of %zu",
                 record_profile(record), record_length(record, RECORD_CLIENT_KEY),
                 record_length(record, RECORD_SERVER_KEY), record_length(record, RECORD_CLIENT_SALT),
                 record_length(record, RECORD_SERVER_SALT), record_length(record, RECORD_MKI));
}

static void keep(const struct record *record, uint32_t endpoint, char answer[ANSWER])
{
    size_t i = 0;

    while (i < KEPT && kept[i].used && kept[i].endpoint != endpoint)
        i++;
    snprintf(answer, ANSWER, i < KEPT ? "kept" : "no room");
    if (i == KEPT)
        return;
    kept[i].used = 1;
    kept[i].endpoint = endpoint;
    kept[i].record = *record;
}

static void same(const struct record *record, uint32_t endpoint, char answer[ANSWER])
{
    size_t i = 0;

    while (i < KEPT && !(kept[i].used && kept[i].endpoint == endpoint))
        i++;
    if (i == KEPT)
        snprintf(answer, ANSWER, "none kept");
    else
        snprintf(answer, ANSWER,
                 difference(kept[i].record.octets, record->octets, RECORD_OCTETS) == 0 ? "equal" : "changed");
}

/* Cuts a request into its words; answers how many. */
static int cut(char *request, char *words[WORDS])
{
    int n = 0;
    char *word = strtok(request, " \n");

    while (word != NULL && n < WORDS) {
        words[n++] = word;
        word = strtok(NULL, " \n");
    }
    return word == NULL ? n : 0;
}

static int answer_words(struct relay *relay, char **words, int n, char text[ANSWER])
{
    uint32_t endpoint = n > 1 ? (uint32_t)strtoul(words[1], NULL, 10) : 0;
    struct answer answer;
    struct record record;

    if (n < 2) {
        snprintf(text, ANSWER, "no such request");
        return 0;
    }
    if (relay_look(relay, endpoint, &record, &answer) != 0)
        return -1;
    if (answer.kind == ANSWER_REFUSED)
        snprintf(text, ANSWER, "refused, %u: %s", answer.number, refusal_meaning(answer.number));
    else if (n == 2 && strcmp(words[0], "look") == 0)
        look(&record, text);
    else if (n == 2 && strcmp(words[0], "keep") == 0)
        keep(&record, endpoint, text);
    else if (n == 2 && strcmp(words[0], "same") == 0)
        same(&record, endpoint, text);
    else if (n == 6 && strcmp(words[0], "compare") == 0)
        compare(&record, words + 2, text);
    else
        snprintf(text, ANSWER, "no such request");
    wipe(&record, sizeof record);
    return 0;
}

int control_answer(int control, struct relay *relay)
{
    char request[REQUEST], answer[ANSWER], *words[WORDS];
    ssize_t got = recv(control, request, sizeof request - 1, MSG_DONTWAIT);
    int done;

    if (got < 0 && (errno == EINTR || errno == EAGAIN || errno == EWOULDBLOCK))
        return 0;
    if (got <= 0) {
        say("control: %s", got == 0 ? "closed" : strerror(errno));
        return 1;
    }
    request[got] = '\0';
    done = answer_words(relay, words, cut(request, words), answer);
    wipe(request, sizeof request);
    if (done != 0)
        return -1;
    while (send(control, answer, strlen(answer), MSG_NOSIGNAL) < 0)
        if (errno != EINTR) {
            say("control: no answer: %s", strerror(errno));
            return 1;
        }
    return 0;
}
