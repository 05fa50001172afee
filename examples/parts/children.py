"""Child processes whose output goes to a file, where a line can be waited for."""

import os
import subprocess
import time

PATIENCE = float(os.environ.get("PATIENCE", "20"))   # seconds to wait for a line


class Missing(Exception):
    """Something that had to come did not."""


class Child:
    def __init__(self, name, folder, words, **options):
        self.name = name
        self.path = "%s/%s.log" % (folder, name)
        self.seen = 0
        with open(self.path, "wb") as output:
            self.process = subprocess.Popen(words, stdin=subprocess.PIPE, stdout=output, stderr=subprocess.STDOUT, **options)

    def output(self):
        with open(self.path, "rb") as output:
            return output.read()

    def lines(self):
        """The whole lines so far, without what is no text."""
        return self.output().decode("utf-8", "replace").split("\n")[:-1]

    def wait_for(self, text, seconds=PATIENCE, anywhere=False):
        """The next line with that text in it, behind the ones that were waited for before; or any such line."""
        limit = time.monotonic() + seconds
        while True:
            running = self.process.poll() is None
            lines = self.lines()
            for at in range(0 if anywhere else self.seen, len(lines)):
                if text in lines[at]:
                    self.seen = max(self.seen, at + 1)
                    return lines[at]
            if not running or time.monotonic() > limit:
                raise Missing("%s did not say '%s'%s" % (self.name, text, "" if running else " before it ended"))
            time.sleep(0.01)

    def tell(self, text):
        self.process.stdin.write(text.encode() + b"\n")
        self.process.stdin.flush()

    def end(self, seconds=5):
        """Ends its input, upon which it should end; its exit status. A child that stays is killed, and None answered."""
        try:
            self.process.stdin.close()
        except OSError:
            pass
        try:
            return self.process.wait(seconds)
        except subprocess.TimeoutExpired:
            self.process.kill()
            self.process.wait()
            return None
