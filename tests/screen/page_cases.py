"""Pages, whole and damaged; the picture that is made of them."""

import multiprocessing
import os
import random
import sys

import paper
from harness import LIBRARY, ROOT, Screen, booth

sys.path.insert(0, os.path.join(ROOT, "screen"))
import files as screen_files
import page
import picture

SEED = 2


def states(entries):
    """What a screen without a list of booths has to say of a page."""
    return [booth(endpoint, "Endpoint %d" % endpoint, "in a call" if keyed else "connecting", place, None)
            for place, keyed, endpoint in sorted(entries, key=lambda entry: entry[2])]


def every_number_of_entries(files):
    chance = random.Random(SEED)
    files.word(b"up\n")
    with Screen(files) as screen:
        for count in list(range(paper.PLACES + 1)) * 3:
            entries = paper.table(chance, count)
            assert paper.read(paper.write(entries)) == entries
            files.page(*entries)
            said = screen.status()
            assert (said["state"], said["live"], said["booths"]) == ("ok", count, states(entries)), (entries, said)


def extremes(files):
    """The least and the greatest numbers, and the longest page."""
    files.word(b"up\n")
    with Screen(files) as screen:
        for entries in ([(0, False, 0)], [(31, True, 2 ** 32 - 1)], [(0, True, 2 ** 32 - 1), (31, False, 0)],
                        [(place, True, 2 ** 32 - 32 + place) for place in range(32)]):
            files.page(*entries)
            assert screen.status()["booths"] == states(entries)


def too_long_by_one(files):
    """The longest page with an octet behind it, zero or not."""
    files.word(b"up\n")
    octets = paper.write([(place, False, place) for place in range(32)])
    with Screen(files) as screen:
        for more, state in ((b"", "ok"), (b"\0", "not-a-page"), (b"x", "not-a-page"), (b"\0" * 1000, "not-a-page")):
            files.put(files.status, octets + more)
            assert screen.status()["state"] == state, more


def damaged(octets, chance):
    for bit in range(8 * len(octets)):
        yield octets[:bit // 8] + bytes([octets[bit // 8] ^ 0x80 >> bit % 8]) + octets[bit // 8 + 1:]
    yield from (octets[:n] for n in range(len(octets)))
    yield from (octets + bytes(more) for more in ([0], [255], [chance.randrange(256)], [0] * 5))
    yield bytes(chance.randrange(256) for _ in octets)


def every_bit_flipped(files):
    """Of pages short and long: not a page, but where the reader of this test says that it is one."""
    chance = random.Random(SEED)
    source = picture.Source(page.Reader(LIBRARY), files.status, None, 30)
    pages = not_pages = 0
    for count in [*range(8), *range(8, paper.PLACES + 1, 4)]:
        for octets in damaged(paper.write(paper.table(chance, count)), chance):
            wanted = paper.read(octets)
            found = screen_files.Found(screen_files.READ, octets[:page.LIMIT + 1], 1000)
            state, entries, refusal = source.judged(found, 1000)
            good = (state, refusal) == (("not-a-page", 29) if wanted is None else ("ok", None)) and \
                (None if entries is None else [tuple(entry) for entry in entries]) == wanted
            assert good, (octets.hex(), wanted, state, entries)
            pages, not_pages = pages + (wanted is not None), not_pages + (wanted is None)
    assert pages > 4000 and not_pages > 1500, (pages, not_pages)


def damaged_files(files):
    """The same through the file and the server, for one page."""
    chance = random.Random(SEED)
    octets = paper.write(paper.table(chance, 3))
    with Screen(files) as screen:
        for wrong in damaged(octets, chance):
            files.put(files.status, wrong)
            wanted, said = paper.read(wrong), screen.status()
            assert said["state"] == ("not-a-page" if wanted is None else "ok"), (wrong.hex(), said)
            assert said["booths"] == states(wanted or []), (wrong.hex(), said)


def generation(number):
    """A page that shows whether it is one of ours as it was written: each has another length, and endpoints of its own."""
    return [(place, number % 2 == 0, number * 32 + place) for place in range(number % 33)]


def keep_writing(path, stop):
    number = 0
    while not stop.is_set():
        with open(path + ".new", "wb") as file:
            file.write(paper.write(generation(number % 2 ** 20)))
        os.rename(path + ".new", path)
        number += 1


def whole(said):
    """The generation of the page that was shown; every entry of it has to be there, and no other."""
    number = said[0][2] // 32 if said else 0
    assert said == generation(number) if said else True, said
    return number


def never_torn(files):
    """10,000 readings while new pages are renamed over the file as fast as can be."""
    files.page()
    stop = multiprocessing.Event()
    writer = multiprocessing.Process(target=keep_writing, args=(files.status, stop))
    writer.start()
    try:
        source = picture.Source(page.Reader(LIBRARY), files.status, None, 30)
        seen = set()
        for _ in range(10000):
            shown = source.picture()
            assert shown.state == "ok", shown
            seen.add(whole([(tile.place, tile.state == "in a call", tile.endpoint) for tile in shown.tiles]))
        with Screen(files) as screen:
            for _ in range(300):
                said = screen.status()
                assert said["state"] == "ok", said
                seen.add(whole([(one["place"], one["state"] == "in a call", one["endpoint"]) for one in said["booths"]]))
    finally:
        stop.set()
        writer.join()
    assert len(seen) > 200, "%d different pages were seen" % len(seen)


CASES = [every_number_of_entries, extremes, too_long_by_one, every_bit_flipped, damaged_files, never_torn]
