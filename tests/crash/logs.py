"""A log that is damaged, left or another file's is told before the file is opened: logs.py PROGRAM

Bits of a log are flipped before its last commit: each order refuses the file, says so, and changes nothing. A last commit that a stop tore
is no damage. `init` makes no file over the log of one that is gone, and a file that is younger than its log isn't opened with it. FLIPS says
how many bits are flipped, and TEARS how many commits are torn."""
import os
import pathlib
import random
import shutil
import struct
import subprocess
import sys
import tempfile

sys.path.insert(0, str(pathlib.Path(__file__).resolve().parents[1] / "lib"))
from connecting import free_port
from drawing import seeded
from talking import Server, adding, answer_to, expect_each_once, make_file, status_of

program = os.path.abspath(sys.argv[1])
FLIPS, TEARS = (int(os.environ.get(name, count)) for name, count in (("FLIPS", 40), ("TEARS", 20)))
TASKS = 20
HEADER, FRAME_HEADER, COUNT_PAGE = 32, 24, 0xFF000000
LIST = ["list", "b.db", "ann", "ann-key-1", "1"]
FILE, LOG = pathlib.Path("b.db"), pathlib.Path("b.db-wal")


def expect(what, is_so):
    if not is_so:
        sys.exit(what)


def write_boards():
    """A file with a log of one commit a task, as a killed server leaves them. Returns both."""
    make_file(program)
    with Server(program, free_port(), errors=subprocess.DEVNULL) as server, server.connect() as client:
        for number in range(TASKS):
            expect("a task is added", status_of(answer_to(client, adding(number))) == 200)
    return FILE.read_bytes(), LOG.read_bytes()


def put(file, log):
    for path, content in ((FILE, file), (LOG, log)):
        path.unlink(missing_ok=True)
        path.write_bytes(content)


def commits_of(log):
    """Where each commit but the first begins, and the end of the last."""
    page_size, salts = struct.unpack(">I", log[8:12])[0], log[16:24]
    starts, end = [], HEADER
    while log[end + 8 : end + 16] == salts:
        if struct.unpack(">I", log[end : end + 4])[0] == COUNT_PAGE:
            starts.append(end)
        end += FRAME_HEADER + page_size
    return starts, end


def refused(words, text):
    """Whether an order refuses the file for this cause, and leaves the file and its log as they were."""
    before = [path.read_bytes() if path.exists() else None for path in (FILE, LOG)]
    done = subprocess.run([program, *words], capture_output=True, text=True)
    after = [path.read_bytes() if path.exists() else None for path in (FILE, LOG)]
    return done.returncode == 1 and done.stderr.startswith("taskboard: Store\n") and text in done.stderr and before == after


def flip_bits(file, log):
    last = commits_of(log)[0][-1]
    for _ in range(FLIPS):
        damaged, at = bytearray(log), random.randrange(last)
        damaged[at] ^= 1 << random.randrange(8)
        put(file, damaged)
        expect(f"a flipped bit of byte {at} is told", refused(random.choice((LIST, ["check", "b.db"])), "damaged before commits"))


def tear_commits(file, log):
    starts, end = commits_of(log)
    for _ in range(TEARS):
        at = random.randrange(starts[-1], end)
        put(file, random.choice((log[:at], log[:at] + bytes(len(log) - at))))
        done = subprocess.run([program, *LIST], capture_output=True, text=True)
        expect(f"a commit that is torn at byte {at} is no damage: {done.stderr}", done.returncode == 0 and f"of {TASKS - 1} tasks" in done.stdout)


def refuse_a_left_log(file, log):
    put(file, log)
    FILE.unlink()
    expect("no file is made over a log", refused(["init", "b.db", "eve", "eve-key-1"], "bring the file back") and not FILE.exists())
    FILE.write_bytes(b"")
    expect("nor opened where it is empty", refused(LIST, "bring the file back"))
    LOG.rename("aside")
    subprocess.run([program, "init", "b.db", "eve", "eve-key-1"], check=True)


def refuse_an_older_log(file, log):
    put(file, log)
    FILE.unlink()
    FILE.write_bytes(file)
    expect("a file that is younger than its log isn't opened", refused(LIST, "younger than its log"))
    shutil.copy(LOG, "copy")
    os.replace("copy", LOG)
    expect_each_once(program, range(TASKS))


def open_copies(file, log):
    """Copies that were made in order open, however they were made."""
    for way in (["cp", FILE, LOG], ["cp", "-a", FILE, LOG], ["install", "-m", "600", FILE, LOG]):
        put(file, log)
        os.mkdir("copies")
        subprocess.run([*way, "copies"], check=True)
        expect_each_once(program, range(TASKS), "copies/b.db")
        shutil.rmtree("copies")


def main():
    seeded()
    with tempfile.TemporaryDirectory() as folder:
        os.chdir(folder)
        file, log = write_boards()
        flip_bits(file, log)
        tear_commits(file, log)
        refuse_a_left_log(file, log)
        refuse_an_older_log(file, log)
        open_copies(file, log)
    print(f"{FLIPS} flipped bits of a log are told, {TEARS} torn commits aren't, and no log is taken for another file's")


main()
