#include "status.h"

#include "clock.h"
#include "descriptor.h"
#include "log.h"

#include <errno.h>
#include <fcntl.h>
#include <stdio.h>
#include <string.h>
#include <unistd.h>

enum { PATH = 1024, WRITE_LIMIT = 1000 };

static const char word_behind[] = ".tunnel", new_behind[] = ".new";

int status_path_fits(const char *path)
{
    return path[0] != '\0' && strlen(path) + sizeof word_behind + sizeof new_behind <= PATH;
}

int64_t status_due(const struct status *status)
{
    if (status->path == NULL)
        return INT64_MAX;
    return status->changed ? 0 : status->due;
}

/* A file that was not there. One that is there is left over from a run that was killed, or a link that somebody has put
 * there: it goes, and nothing is written to it. */
static int create(const char *path)
{
    const int flags = O_WRONLY | O_CREAT | O_EXCL | O_NOFOLLOW | O_CLOEXEC;
    int fd = open(path, flags, 0644);

    if (fd < 0 && errno == EEXIST && unlink(path) == 0)
        fd = open(path, flags, 0644);
    return fd;
}

/* 0, or -1 with errno. */
static int fill(int fd, const void *octets, size_t n)
{
    int problem, done = write_whole(fd, octets, n, now() + WRITE_LIMIT);

    problem = errno;
    if (close(fd) != 0)
        return -1;
    errno = problem;
    return done;
}

/* A new file in the place of the old one. 0, or -1 with errno. */
static int replace(const char *path, const void *octets, size_t n)
{
    char new[PATH];
    int problem, fd;

    snprintf(new, sizeof new, "%s%s", path, new_behind);
    if ((fd = create(new)) < 0)
        return -1;
    if (fill(fd, octets, n) == 0 && rename(new, path) == 0)
        return 0;
    problem = errno;
    unlink(new);
    errno = problem;
    return -1;
}

static int replace_word(const struct status *status, int up)
{
    const char *word = up ? "up\n" : "down\n";
    char path[PATH];

    snprintf(path, sizeof path, "%s%s", status->path, word_behind);
    return replace(path, word, strlen(word));
}

/* Notes how it went; the log has the first of several failures, and their end. */
static void note(struct status *status, int done)
{
    if (done != 0 && !status->failing)
        say("status: %s is not written: %s", status->path, strerror(errno));
    if (done == 0 && status->failing)
        say("status: %s is written again", status->path);
    status->failing = done != 0;
    status->changed = 0;
    status->due = now() + STATUS_PERIOD;
}

void status_write(struct status *status, int up, const uint8_t *page, size_t n)
{
    int done = replace_word(status, up);

    if (done == 0)
        done = replace(status->path, page, n);
    note(status, done);
}

void status_write_down(struct status *status)
{
    note(status, replace_word(status, 0));
}
