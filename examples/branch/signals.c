#include "signals.h"

#include "descriptor.h"
#include "log.h"

#include <errno.h>
#include <signal.h>
#include <string.h>
#include <unistd.h>

static int pipe_ends[2];

/* Tried again where it is interrupted or finds the pipe not ready: without its octet the signal would be lost. A pipe that
 * is full says the same already, so the tries may end. */
enum { TRIES = 64 };

static void caught(int number)
{
    int before = errno, tries = 0;
    unsigned char octet = (unsigned char)number;

    while (write(pipe_ends[1], &octet, 1) < 0 && (errno == EINTR || errno == EAGAIN) && ++tries < TRIES)
        continue;
    errno = before;
}

static int handle(int number, void (*handler)(int))
{
    struct sigaction action;

    memset(&action, 0, sizeof action);
    action.sa_handler = handler;
    sigemptyset(&action.sa_mask);
    return sigaction(number, &action, NULL);
}

int signals_start(void)
{
    if (pipe(pipe_ends) == 0 && descriptor_prepare(pipe_ends[0]) == 0 && descriptor_prepare(pipe_ends[1]) == 0 &&
        handle(SIGPIPE, SIG_IGN) == 0 && handle(SIGTERM, caught) == 0 && handle(SIGINT, caught) == 0 &&
        handle(SIGHUP, caught) == 0)
        return pipe_ends[0];
    say("branch: no signals: %s", strerror(errno));
    return -1;
}
