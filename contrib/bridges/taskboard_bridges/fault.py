"""What ends a program, in words for its user."""


class Fault(Exception):
    """A fault that its text explains."""
