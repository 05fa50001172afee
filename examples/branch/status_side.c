/* To the screen at the desk: what the relay says of its table. */
#include "branch.h"

#include "clock.h"

int branch_show(struct branch *branch)
{
    struct answer answer;

    if (now() < status_due(&branch->status))
        return 0;
    if (relay_page(&branch->relay, &answer) != 0)
        return -1;
    status_write(&branch->status, branch->tunnel.state == TUNNEL_CONNECTED, answer.octets, answer.n);
    return 0;
}

/* Without a relay the page stays as it was, and its age will tell. */
void branch_show_last(struct branch *branch, int relay)
{
    branch->status.changed = 1;
    if (branch->status.path != NULL && (!relay || branch_show(branch) != 0))
        status_write_down(&branch->status);
}
