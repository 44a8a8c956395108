"""How a test ends at the first thing that isn't so."""
import sys


def expecting(whose):
    """An `expect` that ends a test, saying whose it is."""

    def expect(what, is_so):
        if not is_so:
            sys.exit(f"{whose}: {what}")

    return expect
