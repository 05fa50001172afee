/*
 * The control socket, for the demo and the tests alone. A program to be shipped is linked with control/none.c and has
 * neither the option nor the code: no command of this kind ships. With control/compare.c it is a SOCK_SEQPACKET socket
 * that whoever starts the program hands over (--control FD). One request to a packet, one answer to each:
 *
 *   look ENDPOINT                                               open, or keyed with its profile and lengths
 *   compare ENDPOINT CLIENT-KEY SERVER-KEY CLIENT-SALT SERVER-SALT   (hexadecimal) match, or differs
 *   keep ENDPOINT                                               kept: the record as it is now, here in memory
 *   same ENDPOINT                                               equal, or changed: against the record that was kept
 *
 * Keys go in by it and never come out. Each of them makes the relay's Look; where that is refused, the answer is
 * "refused", the number and its meaning.
 */
#ifndef BRANCH_CONTROL_H
#define BRANCH_CONTROL_H

#include "relay.h"

/* "--control"; NULL in a program that has none. */
extern const char *const control_option;

/* Reads one request and answers it. 0; 1 if the other side is gone, and the program with it; -1 if the relay is. */
int control_answer(int control, struct relay *relay);

#endif
