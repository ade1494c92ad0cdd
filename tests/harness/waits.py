"""Programs whose calls are recorded by preloaded libraries, and whose waits may end early."""

import os
import tempfile
import time

from commands import preloaded


class Waits:
    """Programs whose calls are recorded by preloaded libraries: waits.c, and further ones of tests/harness.

    If `at_most` is set, a wait takes at most this number of milliseconds. The clocks of the program advance as if it
    had taken all its time.
    """

    def __init__(self, *libraries, at_most=None, **settings):
        self.folder, self.reported = tempfile.TemporaryDirectory(prefix="waits-"), tempfile.TemporaryFile()
        made = [preloaded(it, self.folder.name) for it in ("waits", *libraries)]
        if at_most is not None:
            settings["WAIT_AT_MOST"] = at_most
        settings.update(LD_PRELOAD=" ".join(made), WAITS_TOLD=self.reported.fileno())
        self.settings = {**os.environ, **{name: str(value) for name, value in settings.items()}}

    def how(self, **settings):
        """Returns the arguments of Popen for such a program, and clears the record."""
        os.ftruncate(self.reported.fileno(), 0)
        os.lseek(self.reported.fileno(), 0, os.SEEK_SET)
        return {"env": {**self.settings, **settings}, "pass_fds": [self.reported.fileno()]}

    def calls(self, kind):
        """Returns the calls of a kind (wait, send, accept, nodelay): the seconds since the program began, by its own
        clock, and the result."""
        lines = os.pread(self.reported.fileno(), 1 << 24, 0).decode().splitlines()
        return [(int(at) / 1000, int(result)) for at, call, result in map(str.split, lines) if call == kind]

    def until_idle(self):
        """Waits until no call is recorded for a while."""
        before, size = None, 0
        while before != size:
            time.sleep(0.4)
            before, size = size, os.fstat(self.reported.fileno()).st_size

    def passed(self):
        """Returns the seconds from the start of a program to its last wait, by its own clock."""
        return max([at for at, _ in self.calls("wait")], default=0)

    def __enter__(self):
        return self

    def __exit__(self, *_):
        self.reported.close()
        self.folder.cleanup()
