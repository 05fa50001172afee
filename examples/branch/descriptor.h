/* File descriptors: how they are set, and whole stretches of octets through them within a time limit. */
#ifndef BRANCH_DESCRIPTOR_H
#define BRANCH_DESCRIPTOR_H

#include <stddef.h>
#include <stdint.h>

/* Has it closed in child processes; the second also makes calls on it return at once. 0, or -1 with errno. */
int descriptor_close_in_children(int fd);
int descriptor_prepare(int fd);

/* Writes or reads n octets, waiting at most until that moment (clock.h). 0, or -1 with errno: ETIMEDOUT for a moment
 * that has passed, EPIPE for an end of the octets to be read. */
int write_whole(int fd, const uint8_t *octets, size_t n, int64_t moment);
int read_whole(int fd, uint8_t *octets, size_t n, int64_t moment);

#endif
