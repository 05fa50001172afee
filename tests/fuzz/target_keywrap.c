/* Wrapping and unwrapping, compared with keywrap.c. The input is the room, two octets; the length of the key, one; the
 * key; and then, by the kind:
 *   6 a plaintext, to be wrapped
 *   7 a ciphertext, to be unwrapped
 *   8 registers, of which the rules make a ciphertext, so that the fuzzer can say what stands in them. A rest of less
 *     than a register, and what stands behind the first 32, stays as it is. */
#include "lent.h"
#include "paper.h"
#include "target.h"
#include <shawm.h>
#include <string.h>

enum { WRAP = 6, REGISTERS = 8 };

static void compare(int wrap, const uint8_t *key, size_t key_n, const uint8_t *text, size_t n, size_t room)
{
    static uint8_t wanted[248];
    const uint8_t *lent_key = lend(0, key, key_n), *lent = lend(1, text, n);
    uint8_t poison = (uint8_t)(0xA5 ^ n), *out = poisoned(room, poison);
    answer paper, library;

    if (wrap) {
        paper = paper_wrap(key, key_n, text, n, room, wanted);
        library = shawm_wrap(lent_key, key_n, lent, n, out, room);
    } else {
        paper = paper_unwrap(key, key_n, text, n, room, wanted);
        library = shawm_unwrap(lent_key, key_n, lent, n, out, room);
    }
    AGREE(wrap ? "shawm_wrap" : "shawm_unwrap", n, library, paper);
    written(out, room, poison, wanted, paper >> 31 ? 0 : paper);
    unchanged(lent_key, key, key_n);
    unchanged(lent, text, n);
}

void compare_keywrap(int kind, const uint8_t *data, size_t size)
{
    static uint8_t text[LARGEST];
    size_t room, key_n, n;

    if (size < 3)
        return;
    room = (size_t)data[0] << 8 | data[1];
    key_n = data[2] < size - 3 ? data[2] : size - 3;
    data += 3;
    n = size - 3 - key_n;
    memcpy(text, data + key_n, n);
    if (kind == REGISTERS && key_n == 16 && n >= 16)
        paper_close(data, text, n < 256 ? n / 8 * 8 : 256);
    compare(kind == WRAP, data, key_n, text, n, room);
}
