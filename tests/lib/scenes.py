"""The connections of the wire examples, as bytes; `crates/tests/data/README.md` says what the lines mean."""
import pathlib
import re


def files_of_scenes():
    folder = pathlib.Path(__file__).resolve().parents[2] / "crates/tests/data"
    return sorted(folder.glob("*.wire"))


def bytes_of(word, rest):
    """The bytes of a line: its mark says how often they stand, and whether the end of a line stands behind each."""
    mark = re.fullmatch(r"[<>]([<>]?)(?:\*(\d+))?", word)
    text = re.sub(rb"\\(x..|.)", lambda it: {b"r": b"\r", b"n": b"\n", b"t": b"\t", b"\\": b"\\"}.get(it[1]) or bytes.fromhex(it[1][1:].decode()), rest.encode())
    return (text + (b"" if mark[1] else b"\r\n")) * int(mark[2] or 1)


def scenes_of(path):
    """The scenes of a file that a real server can play: each is the files of its page, and the connections that one file of boards is sent,
    as bytes sent and wanted, and how many of these the client takes before it goes away; None where it stays."""
    scenes, page, sent, wanted, taken, plays, again = [], {}, b"", b"", None, True, False
    for line in path.read_bytes().decode().split("\n"):
        word, _, rest = line.partition(" ")
        if word.startswith(">"):
            sent += bytes_of(word, rest)
        elif word.startswith("<"):
            wanted += bytes_of(word, rest)
        elif word == "file":
            page[rest.partition(" ")[0]] = bytes_of(">>", rest.partition(" ")[2])
        elif word == "writer" and re.fullmatch(r"fails after \d+", rest):
            taken = int(rest.split()[2])
        elif word in ("moments", "parts", "reader", "writer"):
            plays = False
        elif word == "again":
            again = True
        elif word == "end":
            if not again:
                scenes.append((page, []))
            scenes[-1][1].append((sent, wanted[:taken], taken, plays))
            page, sent, wanted, taken, plays, again = {}, b"", b"", None, True, False
    return [(page, [connection[:3] for connection in scene]) for page, scene in scenes if all(connection[3] for connection in scene)]
