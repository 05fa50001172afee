"""What docs/SCREEN.md shows is what the screen does."""

import json
import os
import re
import subprocess
import sys

from harness import PATIENCE, ROOT, SCREEN, Screen, text


def page():
    with open(os.path.join(ROOT, "docs", "SCREEN.md"), encoding="utf-8") as file:
        return file.read()


def block(first):
    """The indented lines from one that begins so, to the next that is not indented."""
    lines = page().split("\n")
    at = next(i for i, line in enumerate(lines) if line.startswith("    " + first))
    end = next(i for i in range(at, len(lines)) if not lines[i].startswith("    "))
    return [line[4:] for line in lines[at:end]]


def column(heading):
    """The first column of the table with this heading."""
    rows = page().split("\n" + heading, 1)[1].split("\n")[2:]
    return [row.split("|")[1].strip() for row in rows[:rows.index("")]]


def text_example(files):
    files.list(*block("# address, endpoint, name"))
    files.word(b"up\n")
    files.page((0, True, 3), (4, False, 4), (5, True, 9))
    assert text(files) == (0, block("$ screen/screen --text")[1:], "")


def json_example(files):
    files.list(*block("# address, endpoint, name"))
    files.word(b"up\n")
    files.page((0, True, 3), (4, False, 4))
    wanted = json.loads("".join(block('{"state"')))
    with Screen(files) as screen:
        said = screen.status()
        assert list(said) == list(wanted), list(said)
        for name in ("age", "time"):
            assert type(said.pop(name)) is type(wanted.pop(name)), name
        assert said == wanted, said


def options_and_files(files):
    """The tables name every option and every file, and no other."""
    done = subprocess.run([sys.executable, SCREEN, "--help"], capture_output=True, text=True, timeout=PATIENCE)
    listed = re.findall(r"`(--[a-z]+)", " ".join(column("| option | ")))
    assert sorted(listed + ["--help"]) == sorted(set(re.findall(r"--[a-z]+", done.stdout))), done.stdout
    named = re.findall(r"`([a-z.]+)`", " ".join(column("| file of `screen/` | ")))
    assert sorted(named) == sorted(set(os.listdir(os.path.join(ROOT, "screen"))) - {"__pycache__"}), named


CASES = [text_example, json_example, options_and_files]
