"""The faults of wrapping and unwrapping, in the form of faults.py: edits of aes.c, keywrap.c or plain.c."""

WRAP_KEY = "    size_t whole = 8 + (n + 7) / 8 * 8;\n\n    if (key_n != 16)\n        return REFUSAL(34);\n"
UNWRAP_KEY = "    size_t length;\n\n    if (key_n != 16)\n        return REFUSAL(34);\n"
WRAP_COUNT = "        aes_encrypt(keys, block);\n        block[7] ^= (uint8_t)t;\n"
UNWRAP_COUNT = "        block[7] ^= (uint8_t)t;\n        aes_decrypt(keys, block);\n"
WRAP_BLOCK = "    if (n == 16)\n        aes_encrypt(&keys, text);\n"
UNWRAP_BLOCK = "    if (n == 16)\n        aes_decrypt(&keys, text);\n"
WRAP_CALL = "    return write_text(text, paper_wrap(key, key_n, plaintext, plaintext_n, out_n, text), out);\n"
UNWRAP_CALL = "    return write_text(text, paper_unwrap(key, key_n, ciphertext, ciphertext_n, out_n, text), out);\n"


def key_accepted(where, which):
    """A key length beside 16 that is accepted too."""
    return where, where.replace("key_n != 16", f"key_n != 16 && {which}")


def counted(by):
    """The count t added in another way, both ways, so that what is wrapped still comes back."""
    return WRAP_COUNT, WRAP_COUNT.replace("block[7] ^= (uint8_t)t;", by), \
        (UNWRAP_COUNT, UNWRAP_COUNT.replace("block[7] ^= (uint8_t)t;", by))


def after(call, then):
    """What a call does beside its answer."""
    answer = call.replace("return write_text(text, ", "uint32_t answer = ").replace(", out);", ";")
    return call, f"{answer}    {then}\n    return write_text(text, answer, out);\n"


def cut(call, argument, to):
    """A length of a call that is cut on its way."""
    return call, call.replace(f"{argument},", f"({to}){argument},", 1)


FAULTS = [
    # AES.
    ("an entry of the S-box is wrong", "aes.c", "0x54, 0xbb, 0x16,", "0x54, 0xbb, 0x17,"),
    ("two entries of the S-box change places", "aes.c", "0x54, 0xbb, 0x16,", "0x54, 0x16, 0xbb,"),
    ("an entry of the inverse S-box is wrong", "aes.c", "= (uint8_t)i;", "= (uint8_t)(i == 0x53 ? 0x52 : i);"),
    ("a round is left out", "aes.c", "ROUNDS = 10", "ROUNDS = 9"),
    ("a round of encryption is left out", "aes.c", "for (round = 1;", "for (round = 2;"),
    ("a round of decryption is left out", "aes.c", "round >= 1;", "round >= 2;"),
    ("the last round mixes columns", "aes.c", "        if (round < ROUNDS)\n            mix(block);", "        mix(block);", ("        if (round < ROUNDS)\n            unmix(block);", "        unmix(block);")),
    ("decryption mixes columns once more", "aes.c", "        if (round < ROUNDS)\n            unmix(block);", "        unmix(block);"),
    ("decryption mixes columns as encryption does", "aes.c", "    mix(block);\n    mix(block);\n    mix(block);", "    mix(block);"),
    ("columns are mixed by 3, 2, 1, 1", "aes.c", "            a[j] ^= sum ^", "            a[j] = (j < 3 ? a[j + 1] : first) ^ sum ^"),
    ("the field has another polynomial", "aes.c", "* 0x1b)", "* 0x1d)"),
    ("rows go right", "aes.c", "substitute_and_shift(s_box, 1, block)", "substitute_and_shift(s_box, 3, block)", ("substitute_and_shift(keys->inverse, 3, block)", "substitute_and_shift(keys->inverse, 1, block)")),
    ("rows stay", "aes.c", "substitute_and_shift(s_box, 1, block)", "substitute_and_shift(s_box, 0, block)", ("substitute_and_shift(keys->inverse, 3, block)", "substitute_and_shift(keys->inverse, 0, block)")),
    ("decryption shifts rows as encryption does", "aes.c", "substitute_and_shift(keys->inverse, 3, block)", "substitute_and_shift(keys->inverse, 1, block)"),
    ("the round constants are not reduced", "aes.c", "constant = doubled(constant);", "constant = (uint8_t)(constant << 1);"),
    ("the round constants are 1, 2, 3", "aes.c", "constant = doubled(constant);", "constant++;"),
    ("the round constants begin at 2", "aes.c", "constant = 1;", "constant = 2;"),
    ("the round constant is added to the last octet", "aes.c", "w[i] ^= constant;", "w[i + 3] ^= constant;"),
    ("the word of the key schedule is not rotated", "aes.c", "{ 1, 2, 3, 0 }", "{ 0, 1, 2, 3 }"),
    ("the word of the key schedule is rotated the other way", "aes.c", "{ 1, 2, 3, 0 }", "{ 3, 0, 1, 2 }"),
    ("the word of the key schedule is not substituted", "aes.c", "s_box[w[i - 4 + rotated[j]]]", "w[i - 4 + rotated[j]]"),
    ("the key is taken from its second octet on", "aes.c", "memcpy(w, key, 16);", "memcpy(w, key + 1, 15), w[15] = key[0];"),
    ("the octet behind the key is read", "aes.c", "memcpy(w, key, 16);", "memcpy(w, key + 1, 16);"),
    # The registers.
    ("t is not added", "keywrap.c", *counted(";")),
    ("t is not added by unwrapping", "keywrap.c", UNWRAP_COUNT, "        aes_decrypt(keys, block);\n"),
    ("t is added to the first octet", "keywrap.c", *counted("block[0] ^= (uint8_t)t;")),
    ("t is added to the last octet but one", "keywrap.c", *counted("block[6] ^= (uint8_t)t;")),
    ("t is added to the register", "keywrap.c", *counted("block[15] ^= (uint8_t)t;")),
    ("t counts from 0", "keywrap.c", *counted("block[7] ^= (uint8_t)(t - 1);")),
    ("t begins again in each round", "keywrap.c", *counted("block[7] ^= (uint8_t)((t - 1) % n + 1);")),
    ("t has seven bits", "keywrap.c", *counted("block[7] ^= (uint8_t)t & 127;")),
    ("t is added before the cipher", "keywrap.c", WRAP_COUNT, "        block[7] ^= (uint8_t)t;\n        aes_encrypt(keys, block);\n", (UNWRAP_COUNT, "        aes_decrypt(keys, block);\n        block[7] ^= (uint8_t)t;\n")),
    ("registers are wrapped five times", "keywrap.c", "t <= 6 * n", "t <= 5 * n", ("t = 6 * n", "t = 5 * n")),
    ("registers are wrapped seven times", "keywrap.c", "t <= 6 * n", "t <= 7 * n", ("t = 6 * n", "t = 7 * n")),
    ("one block is wrapped as registers are", "keywrap.c", WRAP_BLOCK, WRAP_BLOCK.replace("16", "0"), (UNWRAP_BLOCK, UNWRAP_BLOCK.replace("16", "0"))),
    ("one block is unwrapped as registers are", "keywrap.c", UNWRAP_BLOCK, UNWRAP_BLOCK.replace("16", "0")),
    ("three registers are one block, and one that stays", "keywrap.c", WRAP_BLOCK, WRAP_BLOCK.replace("n == 16", "n <= 24"), (UNWRAP_BLOCK, UNWRAP_BLOCK.replace("n == 16", "n <= 24"))),
    # Mark, length and padding.
    ("the mark is not looked at", "keywrap.c", "memcmp(text, mark, 4)", "memcmp(text, mark, 0)"),
    ("the first octet of the mark is not looked at", "keywrap.c", "memcmp(text, mark, 4)", "memcmp(text + 1, mark + 1, 3)"),
    ("the last octet of the mark is not looked at", "keywrap.c", "memcmp(text, mark, 4)", "memcmp(text, mark, 3)"),
    ("the lowest bit of the mark is not looked at", "keywrap.c", "memcmp(text, mark, 4) != 0", "(memcmp(text, mark, 3) != 0 || (text[3] | 1) != 0xa7)"),
    ("the mark is the first half of RFC 3394's", "keywrap.c", "{ 0xa6, 0x59, 0x59, 0xa6 }", "{ 0xa6, 0xa6, 0xa6, 0xa6 }"),
    ("the initial value of RFC 3394 is accepted too", "keywrap.c", "    if (memcmp(text, mark, 4) != 0)\n", "    if (memcmp(text, \"\\xa6\\xa6\\xa6\\xa6\\xa6\\xa6\\xa6\\xa6\", 8) == 0)\n        return n - 8;\n    if (memcmp(text, mark, 4) != 0)\n"),
    ("the length is that with its padding", "keywrap.c", "out[7] = (uint8_t)n;", "out[7] = (uint8_t)(whole - 8);"),
    ("the length is little-endian", "keywrap.c", "out[7] = (uint8_t)n;", "out[4] = (uint8_t)n;", ("length << 8 | text[i]", "length << 8 | text[11 - i]")),
    ("the length is cut to an octet", "keywrap.c", "for (i = 4; i < 8; i++)", "for (i = 7; i < 8; i++)"),
    ("the length is cut to 16 bits", "keywrap.c", "for (i = 4; i < 8; i++)", "for (i = 6; i < 8; i++)"),
    ("the length is cut to 24 bits", "keywrap.c", "for (i = 4; i < 8; i++)", "for (i = 5; i < 8; i++)"),
    ("the length is cut to 31 bits", "keywrap.c", "length << 8 | text[i]", "(length << 8 | text[i]) & 0x7fffffff"),
    ("a register of zeros behind the plaintext is accepted", "keywrap.c", "length + 16 <= n", "length + 16 < n"),
    ("registers of zeros behind the plaintext are accepted", "keywrap.c", "length + 16 <= n || ", ""),
    ("a length of one octet more than the registers have is accepted", "keywrap.c", "length + 8 > n)", "length + 8 > n + 1)"),
    ("a length of all the registers is refused", "keywrap.c", "length + 8 > n)", "length + 8 >= n)"),
    ("a length of 0 is accepted", "keywrap.c", "    if (length == 0)\n", "    if (length == 0 && memcmp(text, \"\\xa6\\x59\\x59\\xa6\\0\\0\\0\", 8) != 0)\n"),
    ("the padding is not looked at", "keywrap.c", "for (i = 8 + length; i < n; i++)", "for (i = n; i < n; i++)"),
    ("the last octet of the padding alone is looked at", "keywrap.c", "for (i = 8 + length; i < n; i++)", "for (i = 8 + length < n ? n - 1 : n; i < n; i++)"),
    ("the first octet of the padding alone is looked at", "keywrap.c", "for (i = 8 + length; i < n; i++)", "for (i = 8 + length; i < n && i == 8 + length; i++)"),
    ("the lowest bit of the padding is not looked at", "keywrap.c", "if (text[i] != 0)", "if (text[i] > 1)"),
    ("the padding is ones", "keywrap.c", "memset(out, 0, whole);", "memset(out, 1, whole), memset(out, 0, 8);"),
    ("a register of padding where none is needed", "keywrap.c", "8 + (n + 7) / 8 * 8", "8 + (n + 8) / 8 * 8"),
    # Limits and room.
    ("an empty plaintext is wrapped", "keywrap.c", "if (n == 0 || n > 240)", "if (n > 240)"),
    ("a plaintext of 240 octets is not wrapped", "keywrap.c", "if (n == 0 || n > 240)", "if (n == 0 || n > 239)"),
    ("a plaintext of 241 octets is wrapped", "keywrap.c", "if (n == 0 || n > 240)", "if (n == 0 || n > 241)"),
    ("a ciphertext of 31 registers is accepted", "keywrap.c", "n > 248 ||", "n > 256 ||", ("text[248]", "text[256]")),
    ("a ciphertext of 30 registers is refused", "keywrap.c", "n > 248 ||", "n > 240 ||"),
    ("a ciphertext of one block is refused", "keywrap.c", "n < 16 ||", "n < 24 ||"),
    ("octets behind the last register are not looked at", "keywrap.c", "    if (n < 16 ||", "    n -= n % 8;\n    if (n < 16 ||"),
    ("wrapping asks for the room of the plaintext alone", "keywrap.c", "if (room < whole)", "if (room < n)"),
    ("wrapping asks for an octet of room too many", "keywrap.c", "if (room < whole)", "if (room <= whole)"),
    ("wrapping asks for an octet of room too few", "keywrap.c", "if (room < whole)", "if (room + 1 < whole)"),
    ("unwrapping asks for room for the padding", "keywrap.c", "if (room < length)", "if (room < n - 8)"),
    ("unwrapping asks for an octet of room too many", "keywrap.c", "if (room < length)", "if (room <= length)"),
    ("unwrapping asks for an octet of room too few", "keywrap.c", "if (room < length)", "if (room + 1 < length)"),
    ("a key of 15 octets wraps", "keywrap.c", *key_accepted(WRAP_KEY, "key_n != 15")),
    ("a key of 17 octets wraps", "keywrap.c", *key_accepted(WRAP_KEY, "key_n != 17")),
    ("a key of 32 octets wraps", "keywrap.c", *key_accepted(WRAP_KEY, "key_n != 32")),
    ("a key of 15 octets unwraps", "keywrap.c", *key_accepted(UNWRAP_KEY, "key_n != 15")),
    ("a key of 17 octets unwraps", "keywrap.c", *key_accepted(UNWRAP_KEY, "key_n != 17")),
    ("a key of 32 octets unwraps", "keywrap.c", *key_accepted(UNWRAP_KEY, "key_n != 32")),
    # The order of refusals.
    ("wrapping: 33 before 34", "keywrap.c", "        return REFUSAL(34);\n    if (n == 0 ||", "        return n == 0 || n > 240 ? REFUSAL(33) : REFUSAL(34);\n    if (n == 0 ||"),
    ("wrapping: 13 before 33", "keywrap.c", "        return REFUSAL(33);\n", "        return room < whole ? REFUSAL(13) : REFUSAL(33);\n"),
    ("wrapping: 13 before 34", "keywrap.c", "        return REFUSAL(34);\n    if (n == 0 ||", "        return n > 0 && n <= 240 && room < whole ? REFUSAL(13) : REFUSAL(34);\n    if (n == 0 ||"),
    ("unwrapping: 22 before 34", "keywrap.c", "        return REFUSAL(34);\n    if (n < 16 ||", "        return n < 16 || n > 248 || n % 8 != 0 ? REFUSAL(22) : REFUSAL(34);\n    if (n < 16 ||"),
    ("unwrapping: 13 before 22", "keywrap.c", "    if (length == 0)\n        return REFUSAL(22);", "    if (length == 0)\n        return room + 15 < n ? REFUSAL(13) : REFUSAL(22);"),
    ("unwrapping: 13 before 34", "keywrap.c", "        return REFUSAL(34);\n    if (n < 16 ||", "        return n >= 16 && n <= 248 && n % 8 == 0 && room + 15 < n ? REFUSAL(13) : REFUSAL(34);\n    if (n < 16 ||"),
    # The output.
    ("a refused wrapping writes", "plain.c", *after(WRAP_CALL, "if (shawm_is_refusal(answer) && out_n > 0) out[0] = 0;")),
    ("a refused unwrapping writes", "plain.c", *after(UNWRAP_CALL, "if (shawm_is_refusal(answer) && out_n > 0) out[0] = 0;")),
    ("unwrapping without room writes what fits", "plain.c", *after(UNWRAP_CALL, "if (shawm_refusal_number(answer) == 13 && out_n > 0) out[out_n - 1] = 0;")),
    ("the octet behind the ciphertext is cleared", "plain.c", *after(WRAP_CALL, "if (!shawm_is_refusal(answer) && out_n > answer) out[answer] = 0;")),
    ("the padding is written behind the plaintext", "plain.c", *after(UNWRAP_CALL, "if (!shawm_is_refusal(answer) && out_n >= ciphertext_n - 8) memset(out, 0, ciphertext_n - 8);")),
    ("unwrapping writes the octet behind the plaintext", "plain.c", *after(UNWRAP_CALL, "if (!shawm_is_refusal(answer)) out[answer] = 0;")),
    # Memory and state.
    ("a plaintext is changed", "plain.c", *after(WRAP_CALL, "if (plaintext_n == 8) ((uint8_t *)(size_t)plaintext)[7] ^= 1;")),
    ("a key is cleared", "plain.c", *after(UNWRAP_CALL, "if (!shawm_is_refusal(answer)) memset((uint8_t *)(size_t)key, 0, key_n);")),
    ("the octet behind the plaintext is read", "plain.c", *after(WRAP_CALL, "answer += plaintext_n % 8 > 0 && *(volatile const uint8_t *)(plaintext + plaintext_n) > 255;")),
    ("the octet before the ciphertext is read", "plain.c", *after(UNWRAP_CALL, "answer += ciphertext_n > 0 && *(volatile const uint8_t *)(ciphertext - 1) > 255;")),
    ("a plaintext of no octets is read", "plain.c", *after(WRAP_CALL, "answer += plaintext_n == 0 && *(volatile const uint8_t *)plaintext > 255;")),
    ("the key of the last call is kept by its address", "aes.c", "    memcpy(w, key, 16);\n", "    static const uint8_t *last;\n    static struct aes_keys kept;\n    if (last == key) {\n        *keys = kept;\n        return;\n    }\n    memcpy(w, key, 16);\n", ("        keys->inverse[s_box[i]] = (uint8_t)i;\n", "        keys->inverse[s_box[i]] = (uint8_t)i;\n    last = key;\n    kept = *keys;\n")),
    ("the length of a key is cut to an octet", "plain.c", *cut(WRAP_CALL, "key_n", "uint8_t")),
    ("the length of a key is cut to 32 bits", "plain.c", *cut(UNWRAP_CALL, "key_n", "uint32_t")),
    ("the length of a plaintext is cut to an octet", "plain.c", *cut(WRAP_CALL, "plaintext_n", "uint8_t")),
    ("the length of a plaintext is cut to 32 bits", "plain.c", *cut(WRAP_CALL, "plaintext_n", "uint32_t")),
    ("the length of a ciphertext is cut to 32 bits", "plain.c", *cut(UNWRAP_CALL, "ciphertext_n", "uint32_t")),
    ("the room for a ciphertext is cut to 32 bits", "plain.c", *cut(WRAP_CALL, "out_n", "uint32_t")),
    ("the room for a plaintext is cut to 32 bits", "plain.c", *cut(UNWRAP_CALL, "out_n", "uint32_t")),
]
