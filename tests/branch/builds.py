"""The branch, compiled for the tests: as it ships, for the demo, under the sanitizers, with interrupted calls,
and with a library that has more kinds."""

import os
import subprocess

ROOT = os.path.dirname(os.path.dirname(os.path.dirname(os.path.abspath(__file__))))
RELAY = os.environ.get("SHAWM_RELAY", os.path.join(ROOT, "target", "bin", "relay"))

# For the demo: the screen at the desk, and the library that it reads pages with.
SCREEN = os.environ.get("SHAWM_SCREEN", os.path.join(ROOT, "screen", "screen"))
LIBRARY = os.environ.get("SHAWM_LIBRARY", os.path.join(ROOT, "build", "libshawm.so"))

CHECKS = ["-g", "-fsanitize=address,undefined", "-fno-sanitize-recover=all"]
WRAPPED = ("read", "write", "poll", "recvmsg", "sendto", "recv", "send", "getrandom", "waitpid", "connect")
INTERRUPTED = ["-U_FORTIFY_SOURCE", "tests/branch/interrupted.c", "-Wl," + ",".join("--wrap=" + call for call in WRAPPED)]
LATER = ["tests/branch/later.c", "-Wl,--wrap=shawm_sort"]

# Name: control, flags. The first is the one that ships. The last, with a library that has more kinds, is for one case.
BUILDS = {
    "branch-shipped": ("none", []),
    "branch-plain": ("compare", []),
    "branch-checked": ("compare", CHECKS),
    "branch-interrupted": ("compare", CHECKS + INTERRUPTED),
    "branch-later": ("compare", CHECKS + LATER),
}
WITH_CONTROL = ("branch-plain", "branch-checked", "branch-interrupted")


def build(name, root=ROOT):
    """The path of the program; a source that does not compile is an end."""
    control, flags = BUILDS[name]
    out = os.path.join(root, "build", "tests", name)
    subprocess.run(["bash", os.path.join(root, "examples", "branch", "build"), out, control] + flags, check=True)
    return out


def unclean(log):
    """What a sanitizer has to say, if it has."""
    return [line for line in log.split("\n") if "Sanitizer" in line or "runtime error" in line]
