#include "options.h"

#include "control.h"
#include "log.h"
#include "status.h"

#include <stdlib.h>
#include <string.h>

enum { DAY = 24 * 60 * 60 * 1000 };

/* The options, each with its value as it stands on the command line, or as it is without. */
enum name { RELAY, LISTEN, PORT, DISTRIBUTOR, DISTRIBUTOR_PORT, IDLE, RETRY, STATUS, BOOTHS, CONTROL, NAMES };

static const char *const names[] = {
    "--relay", "--listen", "--port", "--distributor", "--distributor-port", "--idle", "--retry", "--status", "--booths"
};

static int usage(void)
{
    say("use: branch --relay PROGRAM --distributor-port PORT [--distributor ADDRESS]");
    say("            [--listen ADDRESS] [--port PORT] [--idle MS] [--retry MS] [--status FILE] [--booths FILE]");
    say("Addresses are numerals. Without an option: 127.0.0.1, port 0 (the system chooses one),");
    say("a booth is closed after 30000 ms of silence, a connection is tried again after 5000 ms,");
    say("no status page is written, and every address is served.");
    return -1;
}

/* NAMES for a word that is none of them. */
static int name_of(const char *word)
{
    int i = 0;

    if (control_option != NULL && strcmp(control_option, word) == 0)
        return CONTROL;
    while (i < CONTROL && strcmp(names[i], word) != 0)
        i++;
    return i < CONTROL ? i : NAMES;
}

/* A decimal number from least to most; or -1. */
static long number(const char *word, long least, long most)
{
    char *end;
    long value = strtol(word, &end, 10);

    return *word == '\0' || *end != '\0' || value < least || value > most ? -1 : value;
}

int options_read(int count, char **words, struct options *options)
{
    const char *values[NAMES] = { NULL, "127.0.0.1", "0", "127.0.0.1", NULL, "30000", "5000", NULL, NULL, NULL };
    int i;

    for (i = 1; i < count; i += 2) {
        int name = name_of(words[i]);

        if (name == NAMES || i + 1 == count)
            return usage();
        values[name] = words[i + 1];
    }
    if (values[RELAY] == NULL || values[DISTRIBUTOR_PORT] == NULL)
        return usage();
    options->relay = values[RELAY];
    options->idle = number(values[IDLE], 1, DAY);
    options->retry = number(values[RETRY], 1, DAY);
    options->control = values[CONTROL] == NULL ? -1 : (int)number(values[CONTROL], 0, 65535);
    options->status = values[STATUS];
    options->booths = values[BOOTHS];
    if (options->status != NULL && !status_path_fits(options->status))
        return usage();
    if (options->idle < 0 || options->retry < 0 || (values[CONTROL] != NULL && options->control < 0))
        return usage();
    if (address_parse(values[LISTEN], values[PORT], SOCK_DGRAM, &options->listen) != 0)
        return -1;
    return address_parse(values[DISTRIBUTOR], values[DISTRIBUTOR_PORT], SOCK_STREAM, &options->distributor);
}
