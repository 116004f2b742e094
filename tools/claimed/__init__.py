"""The claim that the lines of `link` and `why` make."""
