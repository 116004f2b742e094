"""What ends a tool of this folder: one line that tells what is wrong."""


class Fault(Exception):
    """An input that can't be read, or that holds nothing of the kind that is asked for."""
