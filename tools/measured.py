"""Runs a program on a text that is written piece by piece, and tells how it ended, what it wrote, its time and its memory.

What this process holds itself counts as held by what it starts, so texts are generators of pieces, and never stand in
memory."""
import dataclasses
import os
import resource
import tempfile

PIECE = 1 << 20


@dataclasses.dataclass
class Run:
    """Status (negative: ended by that signal), processor seconds, bytes held at most, bytes read, bytes written, and the first of these."""
    status: int
    seconds: float
    held: int
    size: int
    written: int
    text: bytes


def repeated(piece, size):
    """A text of about so many bytes that repeats a piece, in pieces of a mebibyte at most."""
    left, together = max(1, size // len(piece)), max(1, PIECE // len(piece))
    while left > 0:
        yield piece * min(left, together)
        left -= together


def numbered(form, size):
    """A text of about so many bytes: a form, with `%d` for the numbers from 0."""
    number = done = 0
    while done < size:
        text = b"".join(form.replace(b"%d", b"%d" % n) for n in range(number, number + 1000))
        yield text
        number, done = number + 1000, done + len(text)


class Text:
    """A text in a file."""

    def __init__(self, folder, pieces):
        with tempfile.NamedTemporaryFile(dir=folder, delete=False) as file:
            for piece in pieces:
                file.write(piece)
            self.path, self.size = file.name, file.tell()


def run(program, words, text, limit=None, seconds=60, keep=1 << 16, stack=None):
    """Runs the program on a text, for so many processor seconds at most (it ends by SIGXCPU then), with a limit of its address
    space in bytes where one is given, and one of its stack, which counts the environment too: it is empty then. Keeps so many bytes of what it writes."""
    with tempfile.TemporaryFile() as sink:
        child = os.fork()
        if child == 0:
            try:
                os.dup2(os.open(text.path, os.O_RDONLY), 0)
                os.dup2(sink.fileno(), 1)
                os.dup2(os.open(os.devnull, os.O_WRONLY), 2)
                resource.setrlimit(resource.RLIMIT_CPU, (seconds, seconds + 1))
                if limit is not None:
                    resource.setrlimit(resource.RLIMIT_AS, (limit, limit))
                if stack is not None:
                    resource.setrlimit(resource.RLIMIT_STACK, (stack, stack))
                os.execve(program, [program, *words.split()], os.environ if stack is None else {})
            finally:
                os._exit(125)
        _, status, usage = os.wait4(child, 0)
        written = os.fstat(sink.fileno()).st_size
        sink.seek(0)
        seconds = usage.ru_utime + usage.ru_stime
        return Run(os.waitstatus_to_exitcode(status), seconds, usage.ru_maxrss << 10, text.size, written, sink.read(keep))
