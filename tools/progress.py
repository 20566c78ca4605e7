"""What a long run says on standard error, so that it is never silent for long."""
import sys
import threading
import time

# How often a run says at least how far it is, in seconds.
INTERVAL = 10


class Progress:
    """Says how far a run is, in the words of its `line`: when it is told to, and at least every so many seconds while this is entered."""

    def __init__(self):
        self.start, self.ended = time.monotonic(), threading.Event()
        self.thread = threading.Thread(target=self.tell_on, daemon=True)

    def __enter__(self):
        self.thread.start()
        return self

    def __exit__(self, *_):
        self.ended.set()
        self.thread.join()

    def gone(self):
        """How long the run has taken until now, in seconds."""
        return time.monotonic() - self.start

    def line(self):
        raise NotImplementedError

    def tell(self):
        print(self.line(), file=sys.stderr, flush=True)

    def tell_on(self):
        while not self.ended.wait(INTERVAL):
            self.tell()
