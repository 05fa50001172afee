"""Wrong screens, each with what has to find it: file, text, text in its place, and case."""

PAGES = [
    ("page.py", "if answer & REFUSED:", "if answer == REFUSED:", "damaged_files"),
    ("page.py", "raise NotAPage(answer & 0xFF)", "raise NotAPage(13)", "every_bit_flipped"),
    ("page.py", "for number in range(count)]", "for number in range(max(count - 1, 0))]", "every_number_of_entries"),
    ("page.py", "keyed == 1,", "keyed == 0,", "extremes"),
    ("page.py", "return Entry(place,", "return Entry(number,", "every_number_of_entries"),
    ("page.py", "self.endpoint(octets, len(octets), number))", "self.endpoint(octets, len(octets), 0))", "extremes"),
    ("page.py", "ctypes.c_uint32", "ctypes.c_int32", "extremes"),
    ("page.py", "LIMIT = 153 ", "LIMIT = 100 ", "extremes"),
    ("files.py", "return read(path, page.LIMIT + 1)", "return read(path, page.LIMIT)", "too_long_by_one"),
    ("files.py", "return read(path, page.LIMIT + 1)", "return read(path, 1 << 30)", "something_else_in_its_place"),
    ("picture.py", "except page.NotAPage as refused:\n            return NOT_A_PAGE, None, refused.number",
     "except page.NotAPage as refused:\n            return OK, [], None", "damaged_files"),
]

FILES = [
    ("files.py", "os.O_RDONLY | os.O_NONBLOCK |", "os.O_RDONLY |", "something_else_in_its_place"),
    ("files.py", "if not stat.S_ISREG(about.st_mode):", "if stat.S_ISDIR(about.st_mode):", "something_else_in_its_place"),
    ("files.py", "except (FileNotFoundError, NotADirectoryError):", "except (FileNotFoundError, PermissionError):",
     "no_right_to_read"),
    ("files.py", "finally:\n        os.close(descriptor)", "finally:\n        pass", "slow_readers"),
    ("files.py", 'words.get(read(path + ".tunnel", 6).octets, "unknown")', 'words.get(read(path + ".tunnel", 3).octets, "down")',
     "tunnel_words"),
    ("files.py", 'b"down\\n": "down"}', 'b"down\\n": "up"}', "tunnel_words"),
    ("picture.py", "abs(now - found.written) <= self.stale", "now - found.written <= self.stale", "old_pages"),
    ("picture.py", "abs(now - found.written) <= self.stale", "abs(now - found.written) <= 30", "old_pages"),
    ("picture.py", "else STALE), entries, None", "else STALE), [], None", "old_pages"),
    ("picture.py", 'CANNOT_CALL if tunnel == "down" else FREE', "FREE", "tunnel_down"),
    ("picture.py", "idle = NOT_KNOWN if entries is None else", "idle =", "something_else_in_its_place"),
    ("picture.py", "IN_A_CALL if entry.keyed else CONNECTING", "IN_A_CALL", "good_page"),
    ("picture.py", "if endpoint not in listed)", "if endpoint in listed)", "not_in_the_list"),
    ("words.py", "if tile.listed is False]", "if not tile.listed]", "without_a_list"),
    ("screen", "return 0 if shown.state in (picture.OK, picture.STALE) else 1", "return 0", "something_else_in_its_place"),
]

LISTS = [
    ("booths.py", "int(octets) > MOST_ENDPOINT", "int(octets) >= MOST_ENDPOINT", "good_lines"),
    ("booths.py", "int(octets) > MOST_ENDPOINT", "int(octets) > MOST_ENDPOINT + 1", "bad_lines"),
    ("booths.py", 'rb"[0-9]{1,10}"', 'rb"[-+0-9_]{1,10}"', "bad_lines"),
    ("booths.py", "if not 1 <= len(octets) <= MOST_NAME:", "if not 1 <= len(octets.decode('utf-8', 'replace')) <= MOST_NAME:",
     "bad_lines"),
    ("booths.py", 'unicodedata.category(character) == "Cc"', "character < ' '", "bad_lines"),
    ("booths.py", "its_port is None or None in taken or its_port in taken", "its_port in taken", "bad_lines"),
    ("booths.py", "if number in self.endpoints:", "if (number, text) in self.booths:", "bad_lines"),
    ("booths.py", "if len(self.booths) == MOST_BOOTHS:", "if len(self.booths) > MOST_BOOTHS:", "bad_lines"),
    ("booths.py", 'enumerate(octets.split(b"\\n"), 1)', 'enumerate(octets.split(b"\\n"))', "bad_lines"),
    ("booths.py", 'bytes(10) + b"\\xff\\xff"', "bytes(12)", "bad_lines"),
    ("booths.py", "1 <= int(octets) <= 65535", "0 <= int(octets) <= 65535", "bad_lines"),
]

WEB = [
    ("request.py", 'if self.host != "localhost" and not same(self.host, address):', "if False:", "hosts"),
    ("request.py", 'if self.host != "localhost"', 'if not self.host.startswith("localhost")', "hosts"),
    ("request.py", "if not parts or self.host is not None:", "if not parts:", "hosts"),
    ("request.py", "if self.host is None:\n            raise Refused(400)", "self.host = self.host or 'localhost'", "hosts"),
    ("request.py", 'METHODS = (b"GET", b"HEAD")', 'METHODS = (b"GET", b"HEAD", b"POST")', "odd_requests"),
    ("request.py", r'\r\n" % TOKEN)' + "\nHOST", r'\r?\n" % TOKEN)' + "\nHOST", "odd_requests"),
    ("web.py", "if len(line) > most:", "if len(line) > 65536:", "odd_requests"),
    ("web.py", "left -= len(line)", "pass", "odd_requests"),
    ("web.py", "if asked.path not in PATHS:", "if asked.path.lower() not in PATHS:", "odd_requests"),
    ("web.py", "self.reply(await asyncio.wait_for(self.request(), PATIENCE))", "self.reply(await self.request())", "silence"),
    ("web.py", "await asyncio.wait_for(self.send(await self.asked()), PATIENCE)", "await self.send(await self.asked())",
     "slow_readers"),
    ("web.py", "await asyncio.wait_for(self.drop_the_rest(), LINGER)", "pass", "body_with_a_refusal"),
    ("web.py", "if len(self.running) == MOST_CONNECTIONS:", "if False:", "many_at_once"),
    ("web.py", "oldest = next(iter(self.running))", "oldest = list(self.running)[-1]", "many_at_once"),
    ("web.py", "with_body = asked.method != b\"HEAD\"", "with_body = True", "head"),
    ("answer.py", '    ("X-Content-Type-Options", "nosniff"),\n', "", "odd_requests"),
    ("answer.py", '("Cache-Control", "no-store")', '("Cache-Control", "max-age=60")', "odd_requests"),
    ("answer.py", "if status == 405:", "if status == 404:", "odd_requests"),
    ("service.py", "for number in (signal.SIGTERM, signal.SIGINT):", "for number in (signal.SIGTERM,):", "ends_in_order"),
]

LOOK = [
    ("markup.py", "endpoint, html.escape(name),", "endpoint, name,", "names_with_signs"),
    ("markup.py", '"script-src " + allowed(SCRIPT)', '"script-src \'unsafe-inline\'"', "odd_requests"),
    ("markup.py", '"style-src " + allowed(STYLE)', '"style-src " + allowed(SCRIPT)', "each_state"),
    ("markup.py", 'for notice in words.notices(shown)),', 'for notice in words.notices(shown)[:1]),', "each_state"),
    ("data.py", 'for sign in "<>&":', 'for sign in "":', "names_with_signs"),
    ("desk.html", 'id="mark-cannot-call"', 'id="mark-no-call"', "each_state"),
    ("desk.html", "</ul>\n</main>", "</main>", "each_state"),
    ("desk.html", 'href="data:image', 'href="https://example.com/data:image', "each_state"),
    ("desk.css", "--quiet: #46525e", "--quiet: #9aa4ae", "contrasts"),
]

# By what a browser shows: with the case of tests/screen/browser.
SCRIPT = [
    ("desk.js", "tile.dataset.state = booth.state;", "", "changes_without_a_flash"),
    ("desk.js", "const tile = tiles.get(endpoint) || blank", "const tile = blank", "changes_without_a_flash"),
    ("desk.js", "tiles.forEach((tile) => tile.remove());", "", "changes_without_a_flash"),
    ("desk.js", "if (text) said.textContent = text;", "said.textContent = now.summary;", "changes_without_a_flash"),
    ("desk.js", "found.length > MOST_SPOKEN ?", "found.length < 0 ?", "changes_without_a_flash"),
    ("desk.js", "if (now - heard > PATIENCE) reached(false);", "", "server_gone"),
    ("desk.js", "            reached(true);\n", "", "server_gone"),
    ("desk.js", "document.body.dataset.state = now.state;", "", "old_page"),
    ("desk.js", "shown.forEach((notice) => notice.remove());", "", "old_page"),
    ("desk.js", '"#mark-" + booth.state.replaceAll(" ", "-")', '"#mark-free"', "every_mark"),
    ("desk.html", '<meta http-equiv="refresh" content="5">', "", "without_script"),
    ("desk.css", "#booths:has(> :nth-child(25)) { --columns: 8; --gap: 0.5rem; }", "", "many_booths"),
    ("desk.css", "repeat(var(--columns), minmax(0, 1fr))", "repeat(var(--columns), minmax(40rem, 1fr))", "sizes"),
    ("desk.css", "@media (prefers-reduced-motion: no-preference) {", "@media all {", "asked_of_the_system"),
    ("desk.css", 'body[data-state="stale"] #booths,', "", "old_page"),
    ("desk.css", ".notice[hidden], #notices", "#notices", "old_page"),
    ("markup.py", '"connect-src \'self\'",', "", "the_three_states"),
]

DOCS = [
    ("text.py", 'yield "Booths: "', 'yield "Booth: "', "text_example"),
    ("data.py", '"live": shown.live,', '"live": len(shown.tiles),', "json_example"),
    ("screen", '"--stale"', '"--old"', "options_and_files"),
]

WRONG = PAGES + FILES + LISTS + WEB + LOOK + DOCS
