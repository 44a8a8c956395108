"""Answers each worked script by `taskboard run`, and compares with the answers that stand beside it: scripts.py PROGRAM [NAME ..]"""
import pathlib
import subprocess
import sys

program = sys.argv[1]
folder = pathlib.Path(__file__).resolve().parents[2] / "crates/tests/data"


def is_answered(script):
    wanted = script.with_suffix(".answers").read_bytes()
    ran = subprocess.run([program, "run"], input=script.read_bytes(), capture_output=True, timeout=60)
    if ran.returncode == 0 and ran.stdout == wanted:
        return True
    for number, (line, want) in enumerate(zip(ran.stdout.split(b"\n"), wanted.split(b"\n")), 1):
        if line != want:
            print(f"{script.stem}: line {number}: wanted {want!r}, got {line!r}")
            return False
    print(f"{script.stem}: status {ran.returncode}, {len(ran.stdout)} bytes in place of {len(wanted)}; {ran.stderr!r}")
    return False


scripts = sorted(it for it in folder.glob("*.script") if it.stem in sys.argv[2:] or not sys.argv[2:])
answered = [is_answered(script) for script in scripts]
if not scripts or not all(answered):
    sys.exit(1)
print(f"{len(scripts)} scripts are answered as written")
