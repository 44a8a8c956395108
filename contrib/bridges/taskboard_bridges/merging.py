"""What two sides and their last common state come to. Nothing is kept here: all functions are of their arguments alone.

A task is seen as a flat dictionary, so that each part of it is compared by itself. Its keys are `status` (`open`, `completed` or
`deleted`), `started`, `=NAME` for an attribute, `#TAG`, `>UUID` for a task that it waits for, and `!TEXT` for notes, whose value is how
many there are with this text. What isn't there has no key. The left side is the board, the right one the other tool."""

import math

# What a side can't hold.
UNFIT = object()
STATUS, STARTED, VALUE, TAG, LINK, NOTE = "status", "started", "=", "#", ">", "!"


class Merged:
    """What a task has to be on both sides: the keys that change on each, the conflicts, and the keys that one side can't hold, with
    whether that is the left one."""

    def __init__(self):
        self.left, self.right, self.conflicts, self.unfit = {}, {}, [], {}
        # What both sides have of each key once its changes are made.
        self.base = {}

    def put(self, key, left, right, new_left, new_right):
        """Takes what both sides have to have of a key."""
        self.base[key] = (new_left, new_right)
        if new_left != left:
            self.left[key] = new_left
        if new_right != right:
            self.right[key] = new_right

    def read_back(self, view, right):
        """Takes it that the right side will have this view once it is written, whatever was meant."""
        for key in {*self.base, *view}:
            self.base[key] = (self.base.get(key, (None, None))[0], view.get(key))
            if view.get(key) != right.get(key):
                self.right[key] = view.get(key)


class Conflict:
    """A value that both sides changed: which side won, and what the other had."""

    def __init__(self, key, left, right, left_wins):
        self.key, self.left, self.right, self.left_wins = key, left, right, left_wins

    def lost(self):
        """The value of the side that lost."""
        return self.right if self.left_wins else self.left


def plain(value):
    """A value as a text; numbers as their digits, whatever type a side keeps them in."""
    if isinstance(value, bool):
        return "true" if value else "false"
    if isinstance(value, float) and math.isfinite(value):
        return str(int(value)) if value == int(value) else repr(round(value, 6))
    return str(value)


def number_of(value):
    """The number that a value says; None where it is none."""
    try:
        number = round(float(plain(value)), 6)
    except (ValueError, OverflowError):
        return None
    return number if math.isfinite(number) else None


def same(one, other):
    """Whether two values are equal, where one side keeps numbers as texts."""
    if one is None or other is None or one is UNFIT or other is UNFIT:
        return one is other
    if isinstance(one, str) and isinstance(other, str):
        return one == other
    return plain(one) == plain(other) or number_of(one) is not None and number_of(one) == number_of(other)


def merge_counts(before, left, right):
    """How many notes with one text there have to be on each side: the same addition on both sides is one."""
    by_left, by_right = left - before[0], right - before[1]
    if by_left > 0 and by_right > 0:
        by_both = max(by_left, by_right)
    elif by_left < 0 and by_right < 0:
        by_both = min(by_left, by_right)
    else:
        by_both = by_left + by_right
    return max(left + by_both - by_left, 0), max(right + by_both - by_right, 0)


def merge(base, left, right, fits, left_wins):
    """Merges two views of a task. `base` is what both had (a pair of views, or None at the first meeting), `fits` says what each side
    can hold, `left_wins(key, left, right)` which of two new values counts."""
    merged = Merged()
    before_left, before_right = base or ({}, {})
    for key in sorted({*before_left, *before_right, *left, *right}):
        pair = (before_left.get(key), before_right.get(key))
        merge_key(merged, key, pair, base is not None, left.get(key), right.get(key), fits, left_wins)
    settle_started(merged, left, right)
    return merged


def merge_key(merged, key, before, has_base, left, right, fits, left_wins):
    """Merges one key into what is merged."""
    if key[0] == NOTE:
        by_left, by_right = merge_counts([it or 0 for it in before], left or 0, right or 0)
        merge_to(merged, key, left, right, by_left or None, by_right or None, fits)
        return
    if same(fits.to_right(key, left, right), right):
        merged.put(key, left, right, left, right)
        return
    if not has_base and UNFIT in (fits.to_right(key, left, right), fits.to_left(key, right, left)):
        merged.unfit[key] = fits.to_left(key, right, left) is UNFIT
        merged.put(key, left, right, left, right)
        return
    left_changed, right_changed = not has_base or left != before[0], not has_base or right != before[1]
    if not left_changed and not right_changed:
        # What one side couldn't hold, and still can't.
        merged.put(key, left, right, left, right)
    elif left_changed and right_changed:
        merge_both(merged, key, left, right, fits, left_wins)
    elif left_changed:
        merge_to(merged, key, left, right, left, fits.to_right(key, left, right), fits)
    else:
        merge_to(merged, key, left, right, fits.to_left(key, right, left), right, fits)


def merge_both(merged, key, left, right, fits, left_wins):
    """Both sides changed the key, and not to the same."""
    if key[0] in (TAG, LINK):
        # One added what the other never had: it stays.
        if left is None:
            merge_to(merged, key, left, right, fits.to_left(key, right, left), right, fits)
        else:
            merge_to(merged, key, left, right, left, fits.to_right(key, left, right), fits)
        return
    wins = left_wins(key, left, right)
    merged.conflicts.append(Conflict(key, left, right, wins))
    if wins:
        merge_to(merged, key, left, right, left, fits.to_right(key, left, right), fits)
    else:
        merge_to(merged, key, left, right, fits.to_left(key, right, left), right, fits)


def merge_to(merged, key, left, right, new_left, new_right, fits):
    """Puts what the sides have to have; what a side can't hold stays on the other alone, which is told."""
    if key[0] == NOTE:
        new_left, new_right = fits.to_left(key, new_left, left), fits.to_right(key, new_right, right)
    if new_left is UNFIT or new_right is UNFIT:
        merged.unfit[key] = new_left is UNFIT
        new_left = left if new_left is UNFIT else new_left
        new_right = right if new_right is UNFIT else new_right
    merged.put(key, left, right, new_left, new_right)


def settle_started(merged, left, right):
    """A task that isn't open isn't started."""
    status = merged.base.get(STATUS, ("open", "open"))[0]
    if status != "open" and STARTED in merged.base:
        merged.conflicts = [it for it in merged.conflicts if it.key != STARTED]
        merged.left.pop(STARTED, None)
        merged.right.pop(STARTED, None)
        merged.base[STARTED] = (None, None)


def after(base, merged, done_left, done_right):
    """What both sides have once the keys of `done_left` and `done_right` were changed: a key whose change failed stays as it was before,
    so that the next run finds it changed again."""
    before_left, before_right = base or ({}, {})
    lefts, rights = {}, {}
    for key in {*before_left, *before_right, *merged.base}:
        left, right = merged.base.get(key, (before_left.get(key), before_right.get(key)))
        if key in merged.left and key not in done_left or key in merged.right and key not in done_right:
            left, right = before_left.get(key), before_right.get(key)
        if left is not None:
            lefts[key] = left
        if right is not None:
            rights[key] = right
    return lefts, rights
