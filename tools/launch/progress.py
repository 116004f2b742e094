"""Lines on standard error that tell how far a build is."""

import contextlib
import sys
import threading
import time

SECONDS_BETWEEN = 10


@contextlib.contextmanager
def seconds(what):
    """Tells in one line what is done and, every ten seconds, how many have gone by, and ends it with how that ended."""
    began, ended = time.monotonic(), threading.Event()
    tell(f"wolzhyke: {what}:")

    def count():
        while not ended.wait(SECONDS_BETWEEN):
            tell(f" {time.monotonic() - began:.0f} s ..")

    counter = threading.Thread(target=count, daemon=True)
    counter.start()
    outcome = "failed"
    try:
        yield
        outcome = "done"
    except KeyboardInterrupt:
        outcome = "interrupted"
        raise
    finally:
        ended.set()
        counter.join()
        tell(f" {outcome} in {time.monotonic() - began:.0f} s\n")


def tell(text):
    """Writes a piece of a line, where standard error takes it."""
    if sys.stderr is not None:
        with contextlib.suppress(OSError):
            print(text, end="", file=sys.stderr, flush=True)


def minutes(taken):
    """Seconds, as people say them."""
    return f"{taken:.0f} s" if taken < 60 else f"{taken // 60:.0f} min {taken % 60:.0f} s"
