/* Signals that ask the program to end, as octets of a pipe, so that poll sees them and none is missed. */
#ifndef BRANCH_SIGNALS_H
#define BRANCH_SIGNALS_H

/* A descriptor that becomes readable at SIGTERM, SIGINT or SIGHUP; or -1 and a line in the log. SIGPIPE is ignored from
 * then on: a write to a peer that is gone answers EPIPE. */
int signals_start(void);

#endif
