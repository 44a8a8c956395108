"""What the gate has to hear of each crate: that it is proved, that its tests passed, that its program ran, and that each of its must-fail edits is refused.

A crate, a test or an edit of which nothing is said fails the gate, so that none is skipped in silence."""
import pathlib
import re

import proving

# How the kit says each.
PROVED, PASSED, RAN, REFUSED = "crates proved", "crates' tests passed", "programs ran as their files say", "must-fail edits refused"
SAID = {
    PROVED: re.compile(r"rt: (\w+) (?:proved$|is kept: )"),
    PASSED: re.compile(r"rt: (\w+): its tests passed$"),
    RAN: re.compile(r"rt: (\w+ ran(?: \(built by Rattle's own compiler\))?), and wrote what its file stdout has$"),
    REFUSED: re.compile(r"(?:rt: )?must-fail (\w+/\S+): refused, as it must be"),
}
TEST = re.compile(r"(?m)^\s*#\[test\]")
# How many names of one kind are printed.
SHOWN = 20


def has_tests(folder):
    return any(TEST.search(path.read_text()) for path in folder.glob("src/**/*.rt"))


def wanted(top):
    """What has to be heard of a repository, by kind. The second compiler may refuse a program, so of each one run is wanted."""
    folders = {name: pathlib.Path(top, "crates", name) for name in proving.crates_of(top)}
    programs = [name for name, folder in folders.items() if (folder / "src/main.rt").exists()]
    edits = [(name, path.name) for name, folder in folders.items() for path in folder.glob("must-fail/*") if path.suffix != ".md"]
    return {
        PROVED: set(folders),
        PASSED: {name for name, folder in folders.items() if has_tests(folder)},
        RAN: {f"{name} ran" for name in programs},
        REFUSED: {f"{crate}/{edit}" for crate, edit in edits},
    }


def compare(demands, lines):
    """Whether all is heard that has to be, and lines that say how much of it is, and what isn't."""
    is_whole, told = True, []
    for kind, names in demands.items():
        heard = {said[1] for said in map(SAID[kind].match, lines) if said}
        lacking = sorted(names - heard)
        told.append(f"{kind}: {len(names) - len(lacking)} of {len(names)}")
        if lacking:
            is_whole = False
            more = f" and {len(lacking) - SHOWN} more" if len(lacking) > SHOWN else ""
            told.append(f"not said of: {', '.join(lacking[:SHOWN])}{more}")
    return is_whole, told
