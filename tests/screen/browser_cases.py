"""What a person sees in each state: cases for a browser, each with a server and files of its own."""

import os
import time

import harness
from devtools import Tab
from harness import Files, Screen

PICTURES = os.path.join(harness.ROOT, "build", "screen")
FLOORS = ["ground floor", "first floor", "second floor"]

TILES = """[...document.querySelectorAll('#booths > .booth')].map(tile => ({
    name: tile.querySelector('h2').innerText, word: tile.querySelector('.word').innerText, state: tile.dataset.state,
    ground: getComputedStyle(tile).backgroundColor,
    mark: tile.querySelector('use').getAttribute('href'),
    drawn: Math.min(tile.querySelector('svg').clientWidth, tile.querySelector('svg').clientHeight),
    size: parseFloat(getComputedStyle(tile.querySelector('.state')).fontSize),
    inside: [...tile.children].every(one => one.scrollWidth <= tile.clientWidth
            && one.getBoundingClientRect().bottom <= tile.getBoundingClientRect().bottom)
        && tile.querySelector('h2').getBoundingClientRect().bottom <= tile.querySelector('.word').getBoundingClientRect().top
}))"""
NOTICES = "[...document.querySelectorAll('.notice')].filter(one => one.offsetHeight > 0).map(one => one.innerText)"
FITS_WIDTH = "document.documentElement.scrollWidth <= innerWidth"
FITS = FITS_WIDTH + " && document.documentElement.scrollHeight <= innerHeight"


class Desk:
    """The files, a server, and a browser for one case."""

    def __init__(self, browser, folder, booths=6):
        self.browser, self.files = browser, Files(folder)
        self.files.list(*("192.0.2.1:%d %d Booth %d, %s" % (i, i, i, FLOORS[(i - 1) // 3 % 3]) for i in range(1, booths + 1)))
        self.files.word(b"up\n")
        self.files.page((0, True, 1), (1, False, 2), (2, True, 5))
        self.screen = None

    def start(self, *options):
        self.screen = Screen(self.files, *options)

    def tab(self, **options):
        tab = Tab(self.browser, **options)
        tab.open("http://127.0.0.1:%d/" % self.screen.port)
        if options.get("script", True):
            # The script has asked once, so that what is seen is its doing.
            tab.wait("performance.getEntriesByType('resource').length > 0")
        return tab

    def clean(self, tab):
        """Nothing was asked of anybody else, nothing was forbidden by the policy, nothing failed."""
        mine = "http://127.0.0.1:%d/" % self.screen.port
        asked = [event["request"]["url"] for event in tab.events("Network.requestWillBeSent")]
        assert all(one.startswith((mine, "data:")) for one in asked), asked
        wrong = tab.events("Runtime.exceptionThrown", "Audits.issueAdded", "Log.entryAdded")
        assert not wrong, wrong


def shoot(tab, name):
    time.sleep(0.6)      # until a colour has changed
    tab.picture(os.path.join(PICTURES, name + ".png"))


def the_three_states(desk):
    """By word, by colour and by shape, in the light and in the dark, large; and told to a screen reader."""
    desk.start()
    for theme in ("light", "dark"):
        tab = desk.tab(prefers_color_scheme=theme)
        tiles = tab.run(TILES)
        assert [(one["name"], one["word"].lower()) for one in tiles] == [
            ("Booth 1, ground floor", "in a call"), ("Booth 2, ground floor", "connecting"), ("Booth 3, ground floor", "free"),
            ("Booth 4, first floor", "free"), ("Booth 5, first floor", "in a call"), ("Booth 6, first floor", "free")], tiles
        looks = {one["state"]: (one["ground"], one["mark"]) for one in tiles}
        assert len(looks) == 3 and all(len(set(kind)) == 3 for kind in zip(*looks.values())), looks
        assert all(one["size"] >= 32 and one["drawn"] >= 32 for one in tiles), tiles
        assert tab.run(NOTICES) == [] and tab.run(FITS)
        roles = tab.roles()
        for wanted in (("banner", ""), ("main", "Booths"), ("heading", "Booths"), ("heading", "Booth 2, ground floor"),
                       ("status", "")):
            assert wanted in roles, (wanted, roles)
        assert sum(role == "listitem" for role, _ in roles) == 6 and ("StaticText", "Connecting") in roles, roles
        assert tab.run("document.title") == "2 in a call, 1 connecting, 3 free \u2013 Booths"
        shoot(tab, "states-" + theme)
        desk.clean(tab)
        tab.close()


def sizes(desk):
    """A phone, a narrow window at four times the size, a wall: nothing to be moved sideways for."""
    desk.start()
    for name, width, height in (("phone", 390, 844), ("narrow", 320, 256), ("wall", 3840, 2160), ("small", 1024, 768)):
        tab = desk.tab(width=width, height=height, prefers_color_scheme="dark" if name == "wall" else "light")
        assert tab.run(FITS_WIDTH), name
        assert len(tab.run(TILES)) == 6
        assert name != "wall" or min(one["size"] for one in tab.run(TILES)) > 80
        shoot(tab, "size-" + name)
        tab.close()


def many_booths(desk):
    """32 on a wall without moving; 256 to be moved up and down, by keys."""
    for count, width, height, fits in ((32, 1920, 1080, FITS), (256, 1920, 1080, FITS_WIDTH), (32, 390, 844, FITS_WIDTH)):
        desk.__init__(desk.browser, desk.files.folder, booths=count)
        desk.start()
        tab = desk.tab(width=width, height=height, prefers_color_scheme="dark")
        assert len(tab.run(TILES)) == count and tab.run(fits), count
        if fits != FITS:
            tab.press("End")
            tab.wait("scrollY > 0 && scrollY + innerHeight >= document.documentElement.scrollHeight - 2", 5)
            tab.press("Home")
            tab.wait("scrollY === 0", 5)
        shoot(tab, "many-%d-%d" % (count, width))
        tab.close()
        desk.screen.end()


def long_names(desk):
    """The longest names, in one word or in several, stay inside their tiles."""
    for count, width, height in ((6, 1280, 800), (32, 1920, 1080), (12, 1024, 768), (6, 390, 844)):
        names = ["W" * 63, ("Wider than" * 7)[:63]] * (count // 2)
        desk.files.list(*("192.0.2.%d %d %s" % (i, i, name) for i, name in enumerate(names, 1)))
        desk.start()
        tab = desk.tab(width=width, height=height)
        assert tab.run(FITS_WIDTH) and all(one["inside"] for one in tab.run(TILES)), (count, tab.run(TILES))
        shoot(tab, "long-names-%d-%d" % (count, width))
        tab.close()
        desk.screen.end()


def age(desk, seconds):
    moment = time.time() - seconds
    os.utime(desk.files.status, (moment, moment))
    return time.strftime("%H:%M:%S", time.localtime(moment))


def old_page(desk):
    """The last state in grey, with its time; and in colour again when news comes."""
    desk.start()
    tab = desk.tab()
    assert "grayscale" not in tab.run("getComputedStyle(document.getElementById('booths')).filter")
    moment = age(desk, 95)
    tab.wait("document.body.dataset.state === 'stale'", 5)
    notices = tab.run(NOTICES)
    assert len(notices) == 1 and moment in notices[0], notices
    assert "grayscale" in tab.run("getComputedStyle(document.getElementById('booths')).filter")
    assert [one["state"] for one in tab.run(TILES)] == ["in a call", "connecting", "free", "free", "in a call", "free"]
    tab.wait("document.getAnimations().length === 0", 5)
    assert moment in tab.run("document.getElementById('said').textContent")
    shoot(tab, "stale")
    desk.files.page((0, True, 1))
    tab.wait("document.body.dataset.state === 'ok'", 5)
    assert tab.run(NOTICES) == []
    assert tab.run("document.getElementById('said').textContent").startswith("Nothing is wrong any more.")
    desk.clean(tab)
    tab.close()


def told(desk, name, notices, states):
    tab = desk.tab()
    assert tab.run(NOTICES) == notices, tab.run(NOTICES)
    assert {one["state"] for one in tab.run(TILES)} == states, tab.run(TILES)
    shoot(tab, name)
    desk.clean(tab)
    tab.close()


def what_is_wrong(desk):
    """Each in plain words over the booths."""
    desk.start()
    known = "Nothing is known of the booths: "
    down = "The tunnel to the key distributor is down. No booth can begin a call."
    desk.files.page((0, True, 1), (1, False, 2), (2, True, 4711))
    told(desk, "not-in-the-list", ["Connected, and in no line of the list of booths: endpoint 4711."],
         {"in a call", "connecting", "free"})
    desk.files.page()
    desk.files.word(b"down\n")
    told(desk, "tunnel-down", [down], {"cannot call"})
    desk.files.put(desk.files.status, b"\xff")
    told(desk, "not-a-page", [known + "what stands in the status file's place is not a status page (refusal 29).", down],
         {"not known"})
    desk.files.word(b"up\n")
    os.remove(desk.files.status)
    told(desk, "missing", [known + "there is no status file."], {"not known"})


def changes_without_a_flash(desk):
    """The same elements go on, only changes are spoken, and a tile comes and goes."""
    desk.start()
    tab = desk.tab()
    said = "document.getElementById('said').textContent"
    tab.run("window.before = [...document.querySelectorAll('.booth')]; 0")
    tab.wait("performance.getEntriesByType('resource').length > 2", 10)
    assert tab.run(said) == ""
    desk.files.page((0, True, 1), (1, True, 2))
    tab.wait("document.querySelectorAll('.booth')[1].dataset.state === 'in a call'", 5)
    assert tab.run(said) == "Booth 2, ground floor: in a call. Booth 5, first floor: free.", tab.run(said)
    assert tab.run("[...document.querySelectorAll('.booth')].every((one, i) => one === window.before[i])")
    assert tab.run("document.getElementById('summary').innerText") == "2 in a call, 4 free"
    desk.files.page((0, True, 1), (1, True, 2), (7, False, 99))
    tab.wait("document.querySelectorAll('.booth').length === 7", 5)
    assert tab.run(TILES)[6]["name"] == "Endpoint 99, not in the list"
    desk.files.page((0, True, 1), (1, True, 2))
    tab.wait("document.querySelectorAll('.booth').length === 6", 5)
    assert tab.run("[...document.querySelectorAll('.booth')].every((one, i) => one === window.before[i])")
    desk.files.page(*((i, True, i + 1) for i in range(6)))
    tab.wait("document.getElementById('summary').innerText === '6 in a call'", 5)
    desk.files.page()
    tab.wait("document.getElementById('summary').innerText === '6 free'", 5)
    assert tab.run(said) == "6 free.", tab.run(said)
    desk.clean(tab)
    tab.close()


def every_mark(desk):
    """The script gives a tile the mark of its new state."""
    desk.start()
    tab = desk.tab()
    for make, first, second in ((lambda: desk.files.page(), "free", "free"),
                                (lambda: desk.files.page((0, False, 1)), "connecting", "free"),
                                (lambda: desk.files.page((0, True, 1)), "in a call", "free"),
                                (lambda: desk.files.word(b"down\n"), "in a call", "cannot call"),
                                (lambda: os.remove(desk.files.status), "not known", "not known")):
        make()
        tab.wait("[...document.querySelectorAll('.booth')].slice(0, 2).map(one => one.dataset.state).join() === '%s,%s'"
                 % (first, second), 5)
        for one in tab.run(TILES):
            assert one["mark"] == "#mark-" + one["state"].replace(" ", "-") and one["word"].lower() == one["state"], one
    desk.clean(tab)
    tab.close()


def server_gone(desk):
    """Said within ten seconds, and taken back when the server is there again."""
    desk.start()
    tab = desk.tab()
    port = desk.screen.port
    desk.screen.end()
    tab.wait("document.body.dataset.reach === 'lost'", 10)
    sentence = "This screen cannot reach its server any more. What is shown is what it said last."
    assert tab.run(NOTICES) == [sentence] and tab.run("document.getElementById('said').textContent") == sentence
    assert "grayscale" in tab.run("getComputedStyle(document.getElementById('booths')).filter")
    shoot(tab, "server-gone")
    desk.start("--port", str(port))
    tab.wait("document.body.dataset.reach === ''", 10)
    assert tab.run(NOTICES) == []
    tab.close()


def without_script(desk):
    """The present state, and a refresh."""
    desk.start()
    tab = desk.tab(script=False)
    tab.wait("document.querySelectorAll('.booth').length === 6")
    assert [one["state"] for one in tab.run(TILES)] == ["in a call", "connecting", "free", "free", "in a call", "free"]
    assert "every 5 seconds" in tab.run("document.body.innerText")
    shoot(tab, "without-script")
    desk.files.page()
    tab.wait("document.getElementById('summary')?.innerText === '6 free'", 10)
    tab.close()


def asked_of_the_system(desk):
    """Who wants no motion sees none; with the system's own colours the words and shapes are there still."""
    desk.start()
    tab = desk.tab(prefers_reduced_motion="no-preference")
    assert tab.run("document.getAnimations().length") == 1
    tab.close()
    tab = desk.tab(prefers_reduced_motion="reduce")
    assert tab.run("document.getAnimations().length") == 0
    tab.close()
    tab = desk.tab(forced_colors="active")
    assert tab.run("matchMedia('(forced-colors: active)').matches")
    assert len({one["mark"] for one in tab.run(TILES)}) == 3 and all(one["drawn"] >= 32 for one in tab.run(TILES))
    shoot(tab, "forced-colours")
    tab.close()


def names_with_signs(desk):
    """A name is text to the script too."""
    names = ["<script>alert(1)</script>", "\"'><img src=x onerror=alert(1)>", "\u202eabc"]
    desk.files.list(*("192.0.2.%d %d %s" % (i, i, name) for i, name in enumerate(names, 1)))
    desk.start()
    tab = desk.tab()
    desk.files.page((0, False, 1), (1, True, 2))
    tab.wait("document.querySelectorAll('.booth')[1].dataset.state === 'in a call'", 5)
    assert [one["name"] for one in tab.run(TILES)] == names
    assert tab.run("document.querySelectorAll('img').length + document.scripts.length") == 1
    assert names[0] + ": connecting." in tab.run("document.getElementById('said').textContent")
    desk.clean(tab)
    tab.close()


CASES = [the_three_states, sizes, many_booths, long_names, old_page, what_is_wrong, changes_without_a_flash,
         every_mark, server_gone, without_script, asked_of_the_system, names_with_signs]
