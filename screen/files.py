"""What the branch writes, as it stands in the files at this moment: a page's octets, and a word on the tunnel.

The branch renames a new file over the old one, so an opened file is one page whole."""

import collections
import errno
import os
import stat

import page

MISSING, UNREADABLE, OTHER, READ = "missing", "unreadable", "other", "read"

Found = collections.namedtuple("Found", "how octets written")


def read(path, most):
    """At most so many octets of a file, and when it was written. Never waits: not for a FIFO, not for a device."""
    try:
        descriptor = os.open(path, os.O_RDONLY | os.O_NONBLOCK | os.O_NOCTTY | os.O_CLOEXEC)
    except (FileNotFoundError, NotADirectoryError):
        return Found(MISSING, b"", None)
    except OSError as problem:   # ENXIO: a socket
        return Found(OTHER if problem.errno == errno.ENXIO else UNREADABLE, b"", None)
    try:
        return of_opened(descriptor, most)
    except OSError:
        return Found(UNREADABLE, b"", None)
    finally:
        os.close(descriptor)


def of_opened(descriptor, most):
    about = os.fstat(descriptor)
    if not stat.S_ISREG(about.st_mode):
        return Found(OTHER, b"", about.st_mtime)
    return Found(READ, os.read(descriptor, most), about.st_mtime)


def status(path):
    """The status file. One octet more than a page has is enough to be refused."""
    return read(path, page.LIMIT + 1)


def tunnel(path):
    """The word beside the status file: "up" or "down", "unknown" for everything else."""
    words = {b"up\n": "up", b"down\n": "down"}
    return words.get(read(path + ".tunnel", 6).octets, "unknown")
