"""The faults of the index, in the form of faults.py: edits of index.c or plain.c. RIGHT has edits that change no answer,
in the same form: with these every test must pass."""

WAY = """    int32_t upwards = (uint16_t)(sequence - highest);

    if (upwards == HALF)
        return highest < HALF ? HALF : -HALF;
    return upwards < HALF ? upwards : upwards - WHOLE;
"""
TIE = "return highest < HALF ? HALF : -HALF;"
SHORTER = "return upwards < HALF ? upwards : upwards - WHOLE;"
NOT_YET = "if (roc == 0 && tried == 0xffffffff)"
SPENT = "if (roc == 0xffffffff && tried == 0)"
HIGHER = "if (away > 0)"


def by_appendix_a(low="highest < 32768", less="sequence - highest > 32768", more="highest - 32768 > sequence",
                  one_less="away - 65536", one_more="away + 65536"):
    """The comparisons of appendix A, in the place of the shorter way."""
    return WAY, f"""    int32_t away = sequence - highest;

    if ({low})
        return {less} ? {one_less} : away;
    return {more} ? {one_more} : away;
"""


def call(name, said, answer="uint32_t", number="uint32_t", short="uint16_t"):
    """A function of plain.c, as it has to stand there."""
    return f"{answer} {name}({number} roc, {short} highest, {short} sequence)\n{{\n    {said}\n}}\n"


FUNCTIONS = {"number": "shawm_index_number", "roc": "shawm_index_kept_roc", "highest": "shawm_index_kept_highest"}


def said(part, instead, answer="uint32_t"):
    """What one of the functions says in place of its part of the rules' answer."""
    right = call(FUNCTIONS[part], f"return paper_index(roc, highest, sequence).{part};", answer)
    return right, call(FUNCTIONS[part], instead, answer)


def whole_registers(part, instead, answer="uint32_t"):
    """One of the functions with arguments that are as wide as their registers, which the header does not let it
    have by its own name."""
    right, _ = said(part, "", answer)
    head = f"__attribute__((visibility(\"default\"))) {answer} wide(uint64_t, uint64_t, uint64_t) __asm__(\"{FUNCTIONS[part]}\");\n"
    return right, head + call("wide", instead, answer, "uint64_t", "uint64_t")


RIGHT = [
    ("by appendix A", "index.c", *by_appendix_a()),
    ("appendix A with halves up to 32,766 and from 32,767", "index.c", *by_appendix_a(low="highest < 32767")),
    ("appendix A with halves up to 32,768 and from 32,769", "index.c", *by_appendix_a(low="highest <= 32768")),
    ("an equal index is kept", "index.c", HIGHER, "if (away >= 0)"),
]

FAULTS = [
    # The half-way rule.
    ("a tie above is one less", "index.c", TIE, "return -HALF;"),
    ("a tie below is one more", "index.c", TIE, "return HALF;"),
    ("ties go the other way", "index.c", TIE, "return highest < HALF ? -HALF : HALF;"),
    ("the highest tie above is one less", "index.c", TIE, TIE.replace("< HALF", "< HALF - 1")),
    ("the lowest tie below is one more", "index.c", TIE, TIE.replace("< HALF", "<= HALF")),
    ("32,767 above is 32,769 below", "index.c", SHORTER, SHORTER.replace("< HALF", "< HALF - 1")),
    ("32,767 below is 32,769 above", "index.c", SHORTER, SHORTER.replace("< HALF", "<= HALF + 1")),
    ("a packet that comes again is 65,536 late", "index.c", SHORTER, SHORTER.replace("upwards < HALF", "upwards > 0 && upwards < HALF")),
    ("one less begins an index too late", "index.c", *by_appendix_a(less="sequence - highest > 32769")),
    ("one more begins an index too late", "index.c", *by_appendix_a(more="highest - 32769 > sequence")),
    ("the lower half ends at 32,765", "index.c", *by_appendix_a(low="highest < 32766")),
    ("the lower half ends at 32,769", "index.c", *by_appendix_a(low="highest < 32770")),
    ("the difference has no sign", "index.c", *by_appendix_a(less="(uint16_t)(sequence - highest) > 32768")),
    ("the halves are not told apart, without a sign", "index.c", *by_appendix_a(low="0", more="highest - 32768u > sequence")),
    ("half-way is 16,384 upwards", "index.c", *by_appendix_a(less="sequence - highest > 16384")),
    ("half-way is 128 downwards", "index.c", *by_appendix_a(more="highest - 128 > sequence")),
    ("never one less", "index.c", *by_appendix_a(less="0")),
    ("never one more", "index.c", *by_appendix_a(more="0")),
    ("one more in the place of one less", "index.c", *by_appendix_a(one_less="away + 65536")),
    ("one less in the place of one more", "index.c", *by_appendix_a(one_more="away - 65536")),
    ("every lower number has begun again", "index.c", WAY, "    return sequence < highest ? sequence - highest + WHOLE : sequence - highest;\n"),
    ("sequence and highest number change places", "index.c", "int32_t away = way(highest, sequence);", "int32_t away = way(sequence, highest);"),
    # The refusals.
    ("nothing is refused at ROC 0", "index.c", NOT_YET, "if (0)"),
    ("nothing is refused at the last ROC", "index.c", SPENT, "if (0)"),
    ("31 and 32 change places", "index.c", "(0x80000000u | (number))", "(0x80000000u | (31 + 32 - (number)))"),
    ("31 at both ends", "index.c", "REFUSAL(32)", "REFUSAL(31)"),
    ("31 where one less is 0", "index.c", NOT_YET, "if ((roc == 0 && tried == 0xffffffff) || (roc == 1 && tried == 0))"),
    ("32 where one more is the last", "index.c", SPENT, "if (roc >= 0xfffffffe && tried == roc + 1)"),
    ("31 for every lower number at ROC 0", "index.c", NOT_YET, "if (roc == 0 && away < 0)"),
    ("32 for every higher number at the last ROC", "index.c", SPENT, "if (roc == 0xffffffff && away > 0)"),
    ("32 for every packet at the last ROC", "index.c", SPENT, "if (roc == 0xffffffff)"),
    ("32 for one less than the last ROC", "index.c", SPENT, "if (roc == 0xffffffff && tried != roc)"),
    ("31 for one more than ROC 0", "index.c", NOT_YET, "if (roc == 0 && tried != roc)"),
    ("31 for a tie at ROC 0", "index.c", NOT_YET, "if (roc == 0 && (tried == 0xffffffff || away == HALF))"),
    ("32 for a tie at the last ROC", "index.c", SPENT, "if (roc == 0xffffffff && (tried == 0 || away == -HALF))"),
    ("31 for the last sequence number alone", "index.c", NOT_YET, "if (roc == 0 && number == 0xffffffffffff)"),
    ("32 for the first sequence number alone", "index.c", SPENT, "if (roc == 0xffffffff && number == 0)"),
    ("31 for index 0", "index.c", NOT_YET, "if ((roc == 0 && tried == 0xffffffff) || number == 0)"),
    ("32 for the last index", "index.c", SPENT, "if ((roc == 0xffffffff && tried == 0) || number == 0xffffffffffff)"),
    ("31 where the low half of the ROC is 0", "index.c", NOT_YET, "if ((uint16_t)roc == 0 && tried == roc - 1)"),
    ("32 where the low half of the ROC is ones", "index.c", SPENT, "if ((uint16_t)roc == 0xffff && tried == roc + 1)"),
    ("31 where the ROC has a sign and no more", "index.c", NOT_YET, "if (roc << 1 == 0 && tried == roc - 1)"),
    ("32 where the ROC is the last with a sign", "index.c", SPENT, "if (roc << 1 >= 0xfffffffe && tried == roc + 1)"),
    ("one less than ROC 0 is 0", "index.c", NOT_YET, "if (roc == 0 && tried == 0xffffffff)\n        number = sequence;\n    if (0)"),
    ("one more than the last ROC is the last", "index.c", SPENT, "if (roc == 0xffffffff && tried == 0)\n        number |= 0xffffffff0000, tried = roc;\n    if (0)"),
    ("one more than the last ROC is 2^32", "index.c", SPENT, "if (roc == 0xffffffff && tried == 0)\n        number |= 0x1000000000000;\n    if (0)"),
    ("a refused packet has a number", "index.c", "struct paper_index p = { 0, 0, roc, highest };", "struct paper_index p = { 0, ((uint64_t)roc << 16) + sequence, roc, highest };"),
    # The index as a number.
    ("the index is cut to 32 bits", "plain.c", *said("number", "return (uint32_t)paper_index(roc, highest, sequence).number;", "uint64_t")),
    ("the index is cut to 47 bits", "index.c", "p.number = number;", "p.number = number & 0x7fffffffffff;"),
    ("the ROC is cut to 16 bits", "index.c", "(uint64_t)roc << 16 | highest", "(uint64_t)(uint16_t)roc << 16 | highest"),
    ("the ROC is extended by its sign", "index.c", "p.number = number;", "p.number = (uint64_t)(int64_t)(int32_t)tried << 16 | sequence;"),
    ("the sequence number is extended by its sign", "index.c", "p.number = number;", "p.number = ((uint64_t)tried << 16) + (uint64_t)(int16_t)sequence;"),
    ("the way back has no sign", "index.c", "seen + (uint64_t)away", "seen + (uint32_t)away"),
    ("the index is that of the ROC itself", "index.c", "p.number = number;", "p.number = (uint64_t)roc << 16 | sequence;"),
    ("a ROC has 65,535 numbers", "index.c", "p.number = number;", "p.number = (uint64_t)tried * 65535 + sequence;"),
    # The update.
    ("every accepted packet is kept", "index.c", HIGHER, "if (1)"),
    ("a higher sequence number is kept", "index.c", HIGHER, "if (sequence > highest)"),
    ("indices are compared by 32 bits", "index.c", HIGHER, "if ((uint32_t)number > (uint32_t)seen)"),
    ("indices are compared with a sign of 32 bits", "index.c", HIGHER, "if ((int32_t)(number >> 16) > (int32_t)roc || (tried == roc && sequence > highest))"),
    ("a packet that comes again counts as the next", "index.c", HIGHER, "if (away == 0)\n        p.highest = (uint16_t)(sequence + 1);\n    if (away > 0)"),
    ("the next packet is not kept", "index.c", HIGHER, "if (away > 1)"),
    ("a tie is not kept", "index.c", HIGHER, "if (away > 0 && away < HALF)"),
    ("the ROC is kept, the number is not", "index.c", "        p.highest = sequence;\n", ""),
    ("the number is kept, the ROC is not", "index.c", "        p.roc = tried;\n", ""),
    ("under the same ROC nothing is kept", "index.c", HIGHER, "if (away > 0 && tried != roc)"),
    ("the next ROC begins at 0", "index.c", "p.highest = sequence;", "p.highest = tried != roc ? 0 : sequence;"),
    ("a late packet of the ROC before takes the ROC back", "index.c", HIGHER, "if (away > 0 || tried != roc)"),
    ("a packet after the last index is kept", "index.c", "        p.answer = REFUSAL(32);\n", "        p.answer = REFUSAL(32);\n        p.roc = tried;\n        p.highest = sequence;\n"),
    ("a packet before the first index is kept", "index.c", "        p.answer = REFUSAL(31);\n", "        p.answer = REFUSAL(31);\n        p.highest = sequence;\n"),
    ("nothing is kept beside a refusal", "index.c", "        p.answer = REFUSAL(32);\n", "        p.answer = REFUSAL(32);\n        p.roc = p.highest = 0;\n"),
    # The four functions.
    ("an index is answered with 1", "index.c", "    p.number = number;\n", "    p.number = number;\n    p.answer = 1;\n"),
    ("a refusal of an index has more bits than its number", "index.c", "REFUSAL(31)", "(REFUSAL(31) | 0x100)"),
    ("the highest number has the ROC above it", "plain.c", *said("highest", "return roc << 16 | paper_index(roc, highest, sequence).highest;")),
    ("an index is kept for the next packet with that number", "plain.c", *said("number", "static uint64_t number;\n    static uint32_t last = 1, last_roc;\n    if (last != sequence || last_roc != roc)\n        number = paper_index(roc, highest, sequence).number;\n    last = sequence;\n    last_roc = roc;\n    return number;", "uint64_t")),
    ("the highest ROC of all calls is kept", "plain.c", *said("roc", "static uint32_t most;\n    uint32_t now = paper_index(roc, highest, sequence).roc;\n    return most = now > most ? now : most;")),
    ("the ROC is its whole register", "plain.c", *whole_registers("number", "return paper_index(roc, highest, sequence).number | roc >> 32 << 48;", "uint64_t")),
    ("the sequence number is its whole register", "plain.c", *whole_registers("highest", "return paper_index(roc, highest, sequence).highest + (sequence >> 16 != 0);")),
]
