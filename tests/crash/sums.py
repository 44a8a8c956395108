"""A new file has sums of its pages, by which damage is told: sums.py PROGRAM

Bits of a file are flipped: each is told as damage, and nothing is changed. Another SQLite reads the file. FLIPS says how many bits are
flipped."""
import os
import pathlib
import random
import sqlite3
import subprocess
import sys
import tempfile

sys.path.insert(0, str(pathlib.Path(__file__).resolve().parents[1] / "lib"))
from connecting import free_port
from drawing import seeded
from talking import Server, adding, answer_to, make_file, status_of

program = os.path.abspath(sys.argv[1])
FLIPS = int(os.environ.get("FLIPS", 30))
TASKS = 200
FILE, LOG = pathlib.Path("b.db"), pathlib.Path("b.db-wal")
# Where a file's header says how many bytes at the end of each page are kept for sums, and how many that are.
RESERVED, SUM = 20, 8


def write_boards():
    make_file(program)
    with Server(program, free_port(), errors=subprocess.DEVNULL) as server, server.connect() as client:
        for number in range(TASKS):
            if status_of(answer_to(client, adding(number))) != 200:
                sys.exit("a task isn't added")
    # (an order that ends by itself copies the log into the file)
    subprocess.run([program, "check", "b.db"], check=True, stdout=subprocess.DEVNULL)
    return FILE.read_bytes(), LOG.read_bytes() if LOG.exists() else None


def put(file, log):
    """The file, and then its log, as they are to be."""
    for path, content in ((FILE, file), (LOG, log)):
        path.unlink(missing_ok=True)
        if content is not None:
            path.write_bytes(content)


def flip_bits(file, log):
    for _ in range(FLIPS):
        damaged, at = bytearray(file), random.randrange(len(file))
        damaged[at] ^= 1 << random.randrange(8)
        put(damaged, log)
        done = subprocess.run([program, "check", "b.db"], capture_output=True, text=True)
        if done.returncode != 1 or not done.stderr.startswith("taskboard: Store\n"):
            sys.exit(f"a flipped bit of byte {at} isn't told: status {done.returncode}, {done.stdout}{done.stderr}")
        if FILE.read_bytes() != damaged:
            sys.exit(f"a file with a flipped bit of byte {at} was changed")


def read_by_sqlite():
    with sqlite3.connect("b.db") as other:
        rows = other.execute("SELECT count(*) FROM task").fetchone()[0]
        told = other.execute("PRAGMA integrity_check").fetchall()
    other.close()
    if rows != TASKS or told != [("ok",)]:
        sys.exit(f"another SQLite finds {rows} tasks, and says {told}")


def main():
    seeded()
    with tempfile.TemporaryDirectory() as folder:
        os.chdir(folder)
        file, log = write_boards()
        if file[RESERVED] != SUM:
            sys.exit(f"a new file keeps {file[RESERVED]} bytes of each page for sums")
        flip_bits(file, log)
        put(file, log)
        read_by_sqlite()
    print(f"{FLIPS} flipped bits of a file are told, and another SQLite reads it")


main()
