#ifndef TARGET_H
#define TARGET_H

#include <stddef.h>
#include <stdint.h>

/* What a disagreement is printed with. */
extern const char *input_name;

/* Kinds 6 to 8 of input, in target_keywrap.c. */
void compare_keywrap(int kind, const uint8_t *data, size_t size);

/* Kind 9, in target_index.c. */
void compare_index(const uint8_t *data, size_t size);

/* The entry that libFuzzer calls; replay.c calls it too. */
int LLVMFuzzerTestOneInput(const uint8_t *data, size_t size);

#endif
