"""What programs print. Nothing is kept here."""
import os
import sys


def say(text, file=None):
    """Prints a line, with question marks for what the terminal's encoding lacks. Where nobody reads any more, as after `| head`, a program
    does what it has to do all the same."""
    file = file or sys.stdout
    encoding = file.encoding or "utf-8"
    try:
        print(text.encode(encoding, "replace").decode(encoding), file=file, flush=True)
    except BrokenPipeError:
        os.dup2(os.open(os.devnull, os.O_WRONLY), file.fileno())
