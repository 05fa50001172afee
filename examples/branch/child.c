/* The relay as a child process: two pipes, its start and its end. */
#include "relay.h"

#include "clock.h"
#include "descriptor.h"
#include "log.h"

#include <errno.h>
#include <signal.h>
#include <spawn.h>
#include <string.h>
#include <sys/wait.h>
#include <time.h>
#include <unistd.h>

extern char **environ;

enum { END_LIMIT = 2000 };

/* The child's ends become its standard input and output. SIGPIPE is ignored here and usual there: it is what ends a
 * relay whose answers nobody reads, unless it goes by the write that fails, as ours does. An errno, or 0. */
static int spawn(struct relay *relay, const char *path, int in, int out)
{
    char *arguments[] = { (char *)path, NULL };
    posix_spawn_file_actions_t actions;
    posix_spawnattr_t attributes;
    sigset_t usual;
    int problem;

    if ((problem = posix_spawn_file_actions_init(&actions)) != 0)
        return problem;
    if ((problem = posix_spawnattr_init(&attributes)) != 0) {
        posix_spawn_file_actions_destroy(&actions);
        return problem;
    }
    sigemptyset(&usual);
    sigaddset(&usual, SIGPIPE);
    if ((problem = posix_spawn_file_actions_adddup2(&actions, in, STDIN_FILENO)) == 0 &&
        (problem = posix_spawn_file_actions_adddup2(&actions, out, STDOUT_FILENO)) == 0 &&
        (problem = posix_spawnattr_setsigdefault(&attributes, &usual)) == 0 &&
        (problem = posix_spawnattr_setflags(&attributes, POSIX_SPAWN_SETSIGDEF)) == 0)
        problem = posix_spawn(&relay->pid, path, &actions, &attributes, arguments, environ);
    posix_spawnattr_destroy(&attributes);
    posix_spawn_file_actions_destroy(&actions);
    return problem;
}

/* Two pipes, all four ends closed in children but for the two that spawn hands over. 0, or -1 with errno. */
static int pipes(int to[2], int from[2])
{
    if (pipe(to) != 0)
        return -1;
    if (pipe(from) != 0) {
        close(to[0]);
        close(to[1]);
        return -1;
    }
    if (descriptor_prepare(to[1]) == 0 && descriptor_prepare(from[0]) == 0 &&
        descriptor_close_in_children(to[0]) == 0 && descriptor_close_in_children(from[1]) == 0)
        return 0;
    close(to[0]);
    close(to[1]);
    close(from[0]);
    close(from[1]);
    return -1;
}

int relay_start(struct relay *relay, const char *path)
{
    int to[2], from[2], problem;

    relay->pid = -1;
    if (pipes(to, from) != 0) {
        say("branch: no pipes to the relay: %s", strerror(errno));
        return -1;
    }
    problem = spawn(relay, path, to[0], from[1]);
    close(to[0]);
    close(from[1]);
    relay->to = to[1];
    relay->from = from[0];
    if (problem != 0) {
        say("branch: the relay %s does not start: %s", path, strerror(problem));
        close(relay->to);
        close(relay->from);
        relay->pid = -1;
        return -1;
    }
    return 0;
}

/* 1 if the relay has ended within the limit. */
static int ended(pid_t pid, int *status)
{
    const struct timespec moment = { 0, 5000000 };
    int64_t limit = now() + END_LIMIT;

    while (now() < limit) {
        pid_t done = waitpid(pid, status, WNOHANG);

        if (done == pid)
            return 1;
        if (done < 0 && errno != EINTR)
            return 0;
        nanosleep(&moment, NULL);
    }
    return 0;
}

void relay_stop(struct relay *relay)
{
    int status = 0;

    if (relay->pid < 0)
        return;
    close(relay->to);
    close(relay->from);
    if (!ended(relay->pid, &status)) {
        say("branch: the relay does not end and is killed");
        kill(relay->pid, SIGKILL);
        while (waitpid(relay->pid, &status, 0) < 0 && errno == EINTR)
            ;
    }
    if (WIFSIGNALED(status))
        say("branch: the relay was ended by signal %d", WTERMSIG(status));
    relay->pid = -1;
}
