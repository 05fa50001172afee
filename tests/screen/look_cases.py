"""The HTML as it is served: well formed, nothing from outside, and the same as /status says."""

import base64
import hashlib
import html.parser
import os
import re

from harness import ROOT, Screen

VOID = {"meta", "link", "br", "img", "input", "hr"}
REFERENCES = {"src", "href", "action", "data", "poster", "srcset", "background", "xlink:href", "formaction", "ping"}


class Page(html.parser.HTMLParser):
    """Reads a page into elements, and fails where one is not closed as it was opened."""

    def __init__(self, octets):
        super().__init__(convert_charrefs=True)
        self.open, self.elements, self.ids = [], [], set()
        self.feed(octets.decode("utf-8"))
        self.close()
        assert self.open == [], self.open

    def handle_starttag(self, tag, attributes):
        found = dict(attributes)
        assert len(found) == len(attributes), (tag, attributes)
        if "id" in found:
            assert found["id"] not in self.ids, found["id"]
            self.ids.add(found["id"])
        element = {"tag": tag, "text": "", "inside": [one["tag"] for one in self.open], **found}
        self.elements.append(element)
        if tag not in VOID:
            self.open.append(element)

    def handle_endtag(self, tag):
        assert self.open and self.open.pop()["tag"] == tag, tag

    def handle_data(self, text):
        for element in self.open:
            element["text"] += text

    def all(self, tag=None, **attributes):
        """Those that are on the page: what stands in a template is not."""
        return [one for one in self.elements if "template" not in one["inside"] and (tag is None or one["tag"] == tag)
                and all(one.get(name.rstrip("_")) == value for name, value in attributes.items())]

    def one(self, tag=None, **attributes):
        found = self.all(tag, **attributes)
        assert len(found) == 1, (tag, attributes, found)
        return found[0]


def hashed(text):
    return "'sha256-%s'" % base64.b64encode(hashlib.sha256(text.encode()).digest()).decode()


def check_inside(page, policy):
    """Nothing from outside, and nothing that runs but what the policy names by its hash."""
    directives = dict(part.split(" ", 1) for part in policy.split("; "))
    assert directives["script-src"] == hashed(page.one("script")["text"]), directives
    assert directives["style-src"] == hashed(page.one("style")["text"]), directives
    for element in page.elements:
        for name, value in element.items():
            assert not name.startswith("on") and name != "style", (element["tag"], name)
            assert name not in REFERENCES or value.startswith(("#", "data:")), (element["tag"], name, value)
    assert "url(" not in page.one("style")["text"] and "@import" not in page.one("style")["text"]
    assert "//" not in re.sub(r"(?m)(^|\s)// .*$", "", page.one("script")["text"])
    assert not re.search(r"innerHTML|outerHTML|document\.write|insertAdjacentHTML|eval|Function\(", page.one("script")["text"])


def check_same(page, said):
    """The page shows what /status says."""
    assert page.one(id="summary")["text"] == said["summary"]
    assert page.one("title")["text"] == said["summary"] + " \u2013 Booths"
    assert page.one("body")["data-state"] == said["state"]
    shown = [(one["data-kind"], one["text"]) for one in page.all("p", class_="notice") if one["data-kind"] != "lost"]
    assert shown == [(one["kind"], one["text"]) for one in said["notices"]], shown
    tiles = page.all("li", class_="booth")
    assert [one["data-endpoint"] for one in tiles] == [str(one["endpoint"]) for one in said["booths"]]
    assert [one["data-state"] for one in tiles] == [one["state"] for one in said["booths"]]
    assert [one["text"] for one in page.all("bdi", class_="name")] == [one["name"] for one in said["booths"]]
    assert [one["text"] for one in page.all("span", class_="state")] == [one["state"] for one in said["booths"]]
    marks = [one["href"] for one in page.all("use")]
    assert marks == ["#mark-" + one["state"].replace(" ", "-") for one in said["booths"]], marks
    assert all(mark[1:] in page.ids for mark in marks)


def check_parts(page):
    """Landmarks, headings, a list, and a region that is spoken; a way without script."""
    for tag in ("header", "main", "h1", "ul"):
        page.one(tag)
    assert page.one("html")["lang"] == "en"
    said = page.one(id="said")
    assert (said["role"], said["aria-live"], said["text"]) == ("status", "polite", "")
    assert len(page.all("h2")) == len(page.all("li"))
    refresh = page.one("meta", http_equiv=None, content="5")
    assert refresh["http-equiv"] == "refresh" and "noscript" in refresh["inside"] and "head" in refresh["inside"]


NAMES = ["<script>alert(1)</script>", "\"'><img src=x onerror=alert(1)>", "&amp; &lt; ' \" </li></ul>",
         "$title ${script} %s {}", "</script><script>alert(2)</script>", "\u202eright to left", "\u2028\u2029", "]]>--><!-- ", "é\u4e00\U0001f4de"]


def names_with_signs(files):
    """A name is text wherever it is shown."""
    files.list(*("192.0.2.1:%d %d %s" % (i + 1, i, name) for i, name in enumerate(NAMES)))
    files.page((0, True, 0), (1, False, 1), (2, True, 4))
    files.word(b"up\n")
    with Screen(files) as screen:
        said, answer = screen.status(), screen.get("/")
        assert [one["name"] for one in said["booths"]] == [name.rstrip(" ") for name in NAMES]
        page = Page(answer.body)
        assert len(page.all("img")) == 0 and len(page.all("script")) == 1
        check_same(page, said)
        check_inside(page, answer.fields["content-security-policy"])
        check_parts(page)


def each_state(files):
    """The page in every state that the text form has; what is not in order is said in the page without script too."""
    files.list("192.0.2.11 3 Booth 3", "192.0.2.12 4 Booth 4")
    with Screen(files, "--stale", "1000") as screen:
        for make, kinds in STATES:
            make(files)
            said, answer = screen.status(), screen.get("/")
            assert [one["kind"] for one in said["notices"]] == kinds, said
            page = Page(answer.body)
            check_same(page, said)
            check_inside(page, answer.fields["content-security-policy"])
            check_parts(page)
            assert page.one(id="lost").get("hidden", 0) is None


def aged(files):
    os.utime(files.status, (1, 1))


STATES = [
    (lambda files: None, ["missing"]),
    (lambda files: files.word(b"up\n"), ["missing"]),
    (lambda files: files.page(), []),
    (lambda files: files.page((0, True, 3), (1, False, 4)), []),
    (lambda files: files.page((0, True, 3), (1, False, 5)), ["not-in-the-list"]),
    (lambda files: files.word(b"down\n"), ["tunnel-down", "not-in-the-list"]),
    (aged, ["stale", "tunnel-down", "not-in-the-list"]),
    (lambda files: files.clear(files.tunnel), ["stale", "tunnel-unknown", "not-in-the-list"]),
    (lambda files: files.put(files.status, b"\xff"), ["not-a-page"]),
]


def luminance(colour):
    parts = [int(colour[i:i + 2], 16) / 255 for i in (1, 3, 5)]
    red, green, blue = (part / 12.92 if part <= 0.03928 else ((part + 0.055) / 1.055) ** 2.4 for part in parts)
    return 0.2126 * red + 0.7152 * green + 0.0722 * blue


def contrast(one, other):
    light, dark = sorted((luminance(one), luminance(other)), reverse=True)
    return (light + 0.05) / (dark + 0.05)


def contrasts(files):
    """Ink on its ground by WCAG's figure, in the light and in the dark: 4.5 is asked of small type, 7 of all by level AAA."""
    with open(os.path.join(ROOT, "screen", "desk.css"), encoding="utf-8") as file:
        themes = file.read().split("@media (prefers-color-scheme: dark)")
    assert len(themes) == 2
    for theme in themes:
        colours = dict(re.findall(r"--([a-z-]+): (#[0-9a-f]{6})", theme))
        for ground, ink, least in (("ground", "ink", 7), ("ground", "quiet", 7), ("free", "free-ink", 7),
                                   ("connecting", "connecting-ink", 7), ("none", "none-ink", 7), ("call", "call-ink", 5.5),
                                   ("ground", "free-edge", 3), ("ground", "connecting-edge", 3), ("ground", "call", 3)):
            found = contrast(colours[ground], colours[ink])
            assert found >= least, (ground, ink, found)


CASES = [names_with_signs, each_state, contrasts]
