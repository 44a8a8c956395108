"""Stops sessions of worked scripts at each call of their files: python3 stops.py PROGRAM [NAME..], where the program is that of the crate tests.

Each script is sent over a log and a database file in memory. Of these one stops at a call, or fails a call and goes on, for each call in turn; then the session
behind a stop is stopped too. A line for each script says how often that was done. SECONDS is how long one way may take, and ONCE=1 leaves second stops out."""
import concurrent.futures
import os
import pathlib
import subprocess
import sys
import time

PROGRAM, NAMES = os.path.abspath(sys.argv[1]), sys.argv[2:]
DATA = pathlib.Path(__file__).resolve().parents[2] / "crates/tests/data"
SECONDS, IS_ONCE = float(os.environ.get("SECONDS", "3600")), os.environ.get("ONCE") == "1"
ONCE = ("log", "file", "log_once", "file_once")
TWICE = ("log log", "log file", "file log", "file file")
# A longer script is stopped twice at some calls alone, so far apart; one that fills a board is stopped so alone, farther apart, as each session takes a second.
MOST_LINES, MOST_BYTES, APART = 12, 2048, int(os.environ.get("APART", "17"))
FILLS_A_BOARD, FAR_APART = 20_000, 499


def stops(script, way):
    """How often a file stopped or failed; or what went otherwise than it has to."""
    try:
        ran = subprocess.run([PROGRAM, script, way], capture_output=True, text=True, timeout=SECONDS)
    except subprocess.TimeoutExpired:
        return None, f"{way}: not done in {SECONDS:.0f} seconds"
    if ran.returncode:
        return None, f"{way}: {ran.stdout}{ran.stderr}"
    return int(ran.stdout), None


def twice(apart):
    return [f"{ways} {apart}" for ways in TWICE]


def ways_of(script):
    """The ways in which a script's files stop: once at each call, and then twice."""
    size, lines = script.stat().st_size, len(script.read_bytes().splitlines())
    if size > FILLS_A_BOARD:
        return [], twice(FAR_APART)
    if IS_ONCE:
        return ONCE, []
    return ONCE, twice(1 if lines <= MOST_LINES and size <= MOST_BYTES else APART)


begun, wrong, total = time.monotonic(), [], [0, 0]
scripts = [DATA / f"{name}.script" for name in NAMES] or sorted(DATA.glob("*.script"))
with concurrent.futures.ThreadPoolExecutor(os.cpu_count()) as pool:
    tried = [(script, [[(way, pool.submit(stops, script, way)) for way in ways] for ways in ways_of(script)]) for script in scripts]
    for script, kinds in tried:
        found = [[(way, *each.result()) for way, each in ways] for ways in kinds]
        wrong += [f"{script.stem}, {fault}" for ways in found for _, _, fault in ways if fault]
        counts = [sum(count or 0 for _, count, _ in ways) for ways in found]
        total = [total[0] + counts[0], total[1] + counts[1]]
        told = [f"{way} {count}" for way, count, _ in found[0]]
        print(f"{script.stem}: {', '.join([*told, f'behind a stop {counts[1]}'])}", flush=True)
for fault in wrong[:20]:
    print(f"wrong: {fault}")
print(f"{len(tried)} scripts, {total[0]} sessions stopped or failed, {total[1]} of those behind a stop; in {time.monotonic() - begun:.0f} s")
sys.exit(1 if wrong else 0)
