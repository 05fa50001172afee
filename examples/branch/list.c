/* The file of the list, and the search in it. */
#include "list.h"

#include "log.h"

#include <errno.h>
#include <stdio.h>
#include <string.h>

/* Longer than any line with single blanks between its words. */
enum { LINE = 512 };

/* What the next line is. */
enum { NO_LINE, WHOLE, LONG };

/* Reads the next line, without its end; of a longer one its front. A zero octet, which would end the text, becomes
 * another octet that no line may have. */
static int next_line(FILE *file, char line[LINE])
{
    size_t n = 0;
    int c, whole = WHOLE, some = 0;

    while ((c = getc(file)) != EOF && c != '\n') {
        some = 1;
        if (n < LINE - 1)
            line[n++] = c == '\0' ? '\x7F' : (char)c;
        else
            whole = LONG;
    }
    line[n] = '\0';
    return c == EOF && !some ? NO_LINE : whole;
}

/* 1 if both lines have an address in common. */
static int overlap(const struct listed *a, const struct listed *b)
{
    return memcmp(a->host, b->host, LISTED_HOST) == 0 && (a->port == b->port || a->port == 0 || b->port == 0);
}

/* What is wrong with the new line beside those before it. */
static const char *beside_others(const struct list *list, const struct listed *listed)
{
    size_t i;

    for (i = 0; i < list->n; i++) {
        if (list->all[i].endpoint == listed->endpoint)
            return "an endpoint number that a line before it has";
        if (overlap(&list->all[i], listed))
            return "an address that a line before it has";
    }
    return NULL;
}

/* Takes one line. What is wrong with it, or NULL. */
static const char *take(struct list *list, char *line, int state)
{
    struct listed listed;
    const char *wrong;

    if (line[0] == '#' || (state == WHOLE && line[strspn(line, " \t")] == '\0'))
        return NULL;
    if (state == LONG)
        return "too long";
    if ((wrong = listed_read(line, &listed)) != NULL || (wrong = beside_others(list, &listed)) != NULL)
        return wrong;
    if (list->n == LISTED)
        return "more than 256 booths";
    list->all[list->n++] = listed;
    return NULL;
}

static int take_all(struct list *list, FILE *file, const char *path)
{
    char line[LINE];
    unsigned long number = 0;
    const char *wrong = NULL;
    int state;

    while (wrong == NULL && (state = next_line(file, line)) != NO_LINE) {
        number++;
        wrong = take(list, line, state);
    }
    if (wrong == NULL && !ferror(file))
        return 0;
    if (wrong == NULL)
        say("branch: %s is not read: %s", path, strerror(errno));
    else
        say("branch: %s, line %lu: %s", path, number, wrong);
    return -1;
}

int list_read(struct list *list, const char *path)
{
    FILE *file = fopen(path, "r");
    int done;

    list->n = 0;
    if (file == NULL) {
        say("branch: %s is not read: %s", path, strerror(errno));
        return -1;
    }
    done = take_all(list, file, path);
    fclose(file);
    if (done == 0)
        say("branch: %zu booths listed in %s", list->n, path);
    return done;
}

const struct listed *list_find(const struct list *list, const struct address *address)
{
    uint8_t host[LISTED_HOST];
    uint16_t port;
    size_t i;

    listed_address(address, host, &port);
    for (i = 0; i < list->n; i++)
        if (memcmp(list->all[i].host, host, LISTED_HOST) == 0 &&
            (list->all[i].port == 0 || list->all[i].port == port))
            return &list->all[i];
    return NULL;
}
