"""Status pages, written and read by document 02, order 1, alone: no code of the library and none of the screen."""

PLACES, COUNT_BITS, PLACE_BITS, ENDPOINT_BITS = 32, 6, 5, 32
ENTRY_BITS = PLACE_BITS + 1 + ENDPOINT_BITS


def binary(number, bits):
    return format(number, "0%db" % bits)


def write(entries):
    """The page of these entries, (place, keyed, endpoint) each, the lowest place first."""
    bits = binary(len(entries), COUNT_BITS)
    for place, keyed, endpoint in entries:
        bits += binary(place, PLACE_BITS) + ("1" if keyed else "0") + binary(endpoint, ENDPOINT_BITS)
    bits += "0" * (-len(bits) % 8)
    return int(bits, 2).to_bytes(len(bits) // 8, "big")


def read(octets):
    """The entries of a page that some table can give; None for octets that no table gives."""
    bits = "".join(binary(octet, 8) for octet in octets)
    if len(bits) < COUNT_BITS:
        return None
    count = int(bits[:COUNT_BITS], 2)
    if count > PLACES or len(bits) != -(-(COUNT_BITS + count * ENTRY_BITS) // 8) * 8:
        return None
    fields = [bits[COUNT_BITS + i * ENTRY_BITS:COUNT_BITS + (i + 1) * ENTRY_BITS] for i in range(count)]
    entries = [(int(field[:PLACE_BITS], 2), field[PLACE_BITS] == "1", int(field[PLACE_BITS + 1:], 2)) for field in fields]
    places, endpoints = [entry[0] for entry in entries], [entry[2] for entry in entries]
    good = places == sorted(set(places)) and len(set(endpoints)) == count and "1" not in bits[COUNT_BITS + count * ENTRY_BITS:]
    return entries if good else None


def table(random, count):
    """A random table with so many live associations, as entries. Endpoints are near each other or far apart."""
    most = random.choice((64, 2 ** 32))
    endpoints = random.sample(range(most), count)
    return [(place, random.random() < 0.5, endpoint)
            for place, endpoint in zip(sorted(random.sample(range(PLACES), count)), endpoints)]
