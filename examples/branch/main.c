/* The loop: waits until something comes or is due, and hands it to what deals with it (branch.h). */
#include "branch.h"
#include "clock.h"
#include "control.h"
#include "descriptor.h"
#include "log.h"
#include "options.h"
#include "signals.h"
#include "udp.h"

#include <errno.h>
#include <fcntl.h>
#include <poll.h>
#include <stdlib.h>
#include <string.h>
#include <unistd.h>

enum source { SIGNALS, RELAY, CONTROL, TUNNEL, UDP, SOURCES };

enum { GO_ON, END, RELAY_GONE, NO_WAITING };

/* How long the last messages may take to go out. */
enum { LAST_LIMIT = 1000 };

static struct branch branch;
static struct list list;

/* One packet between two looks at everything else: its message has room in the tunnel's buffer, which is emptied in
 * between. */
static int from_udp(void)
{
    static struct packet packet;
    int got = udp_receive(branch.udp, &packet);

    if (got < 0)
        say("branch: no packet from the booths: %s", strerror(errno));
    return got == 1 && branch_packet(&branch, &packet) != 0 ? RELAY_GONE : GO_ON;
}

static int from_tunnel(short events)
{
    int done = 0;

    if (branch.tunnel.state == TUNNEL_CONNECTING)
        return branch_connected(&branch) == 0 ? GO_ON : RELAY_GONE;
    if (events & POLLOUT)
        done = tunnel_flush(&branch.tunnel);
    if (done == 0 && events & (POLLIN | POLLHUP | POLLERR))
        done = tunnel_fill(&branch.tunnel);
    if (done < 0)
        done = branch_disconnected(&branch, errno == 0 ? "closed by the key distributor" : strerror(errno));
    else if (done > 0)
        done = branch_octets(&branch);
    return done == 0 ? GO_ON : RELAY_GONE;
}

static int from_control(int control)
{
    int done = control_answer(control, &branch.relay);

    return done == 0 ? GO_ON : done > 0 ? END : RELAY_GONE;
}

/* What has come. Between calls the relay has nothing to say, so whatever comes from it is its end. */
static int deal_with(const struct pollfd sources[SOURCES])
{
    int state = GO_ON;

    if (sources[SIGNALS].revents)
        return END;
    if (sources[RELAY].revents) {
        say("branch: the relay has ended: its table is lost");
        return RELAY_GONE;
    }
    if (sources[CONTROL].revents)
        state = from_control(sources[CONTROL].fd);
    if (state == GO_ON && sources[TUNNEL].revents)
        state = from_tunnel(sources[TUNNEL].revents);
    if (state == GO_ON && sources[UDP].revents)
        state = from_udp();
    return state;
}

static int loop(int signals, int control)
{
    int state = GO_ON;

    while (state == GO_ON) {
        struct pollfd sources[SOURCES] = {
            [SIGNALS] = { signals, POLLIN, 0 },
            [RELAY] = { branch.relay.from, POLLIN, 0 },
            [CONTROL] = { control, POLLIN, 0 },   /* poll passes over a descriptor of -1 */
            [TUNNEL] = { branch.tunnel.fd, tunnel_events(&branch.tunnel), 0 },
            [UDP] = { branch.udp, POLLIN, 0 }
        };
        int ready = poll(sources, SOURCES, until(branch_due(&branch)));

        if (ready < 0 && errno != EINTR && errno != EAGAIN) {
            say("branch: no waiting: %s", strerror(errno));
            return NO_WAITING;
        }
        if (ready > 0)
            state = deal_with(sources);
        if (state == GO_ON && (branch_tick(&branch) != 0 || branch_show(&branch) != 0))
            state = RELAY_GONE;
    }
    return state;
}

/* Closes every association, so that the key distributor knows, and sends what is left to send. -1 if the relay is
 * gone. */
static int finish(void)
{
    struct booth *booth;
    struct answer answer;

    while ((booth = booths_most_idle(&branch.booths)) != NULL)
        if (branch_close(&branch, booth, "the branch ends") != 0)
            return -1;
    if (branch.tunnel.state != TUNNEL_CONNECTED)
        return 0;
    if (write_whole(branch.tunnel.fd, branch.tunnel.out, branch.tunnel.out_n, now() + LAST_LIMIT) != 0)
        say("tunnel: last messages lost: %s", strerror(errno));
    return relay_end(&branch.relay, &answer);
}

/* A program without its three standard descriptors would get a socket or a pipe as one of them. */
static int standard_descriptors(void)
{
    int fd;

    do
        fd = open("/dev/null", O_RDWR);
    while (fd >= 0 && fd <= STDERR_FILENO);
    return fd < 0 ? -1 : close(fd);
}

/* What the options say, before anything is started. 0, or -1 and a line in the log. */
static int prepare(const struct options *options)
{
    tunnel_init(&branch.tunnel);
    branch.distributor = options->distributor;
    branch.idle = options->idle;
    branch.retry = options->retry;
    branch.moment = now();
    branch.status.path = options->status;
    branch.list = options->booths == NULL ? NULL : &list;
    if (options->booths != NULL && list_read(&list, options->booths) != 0)
        return -1;
    if (options->control >= 0 && descriptor_close_in_children(options->control) != 0) {
        say("control: %s", strerror(errno));
        return -1;
    }
    return 0;
}

int main(int count, char **words)
{
    struct options options;
    int signals, state, relay;

    if (standard_descriptors() != 0 || options_read(count, words, &options) != 0 || prepare(&options) != 0)
        return EXIT_FAILURE;
    if ((signals = signals_start()) < 0 || (branch.udp = udp_open(&options.listen)) < 0 ||
        relay_start(&branch.relay, options.relay) != 0)
        return EXIT_FAILURE;
    state = loop(signals, options.control);
    relay = state != RELAY_GONE && finish() == 0;
    tunnel_close(&branch.tunnel);
    branch_show_last(&branch, relay);
    relay_stop(&branch.relay);
    say("branch: ended");
    return state == END ? EXIT_SUCCESS : EXIT_FAILURE;
}
