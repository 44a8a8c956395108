"""What taskboard-ship does at each turn, one after the other, each waited for: python3 ship_scenes.py PROGRAM PORT SHIP, in a folder that it
may write to."""
import contextlib
import json
import math
import os
import pathlib
import shutil
import signal
import subprocess
import sys
import time

from shipping import PATIENCE, TO, Place, Shipper, clear, clear_other_place, cut_log, expect, now, send_all, series, wait_until
from talking import answer_to, is_whole, make_file, message, identified, status_of

place = Place(*sys.argv[1:4])
SSHD = shutil.which("sshd") or "/usr/sbin/sshd"
# A call that writes 2 MB at once: an instance for each of 12 days, each with long notes.
NOTES = [{"entry": "20260101T000000Z", "description": f"note {number}" + "y" * 16000} for number in range(12)]
DUE = time.strftime("%Y%m%dT000000Z", time.gmtime(time.time() - 12 * 86400))
LARGE = {"description": "Template", "due": DUE, "recur": "daily", "annotations": NOTES}
numbers = iter(range(1, 10**9))


def add(server, count):
    send_all(server, [next(numbers) for _ in range(count)])


def add_large(server):
    with server.connect(PATIENCE) as client:
        answer = answer_to(client, message(b"POST", b"/boards/1/tasks", json.dumps(LARGE).encode(), identified(next(numbers))))
        expect(f"a large call: {answer[:200]}", is_whole(answer) and status_of(answer) == 200)


def ships(shipper, what, least, most=None):
    """All is shipped, to so many series, and restored it has the same rows."""
    shipper.wait_whole()
    place.expect_same(what)
    found = len(series())
    expect(f"{what}: {found} series in place of {least}", least <= found <= (most or least))


def follows():
    """Goes on with the series that is there over ends of either side and checkpoints, and begins another where it can't know what it missed."""
    make_file(place.program)
    clear_other_place()
    with place.server() as server:
        with Shipper(place.ship) as shipper:
            add(server, 3)
            ships(shipper, "three tasks", 1)
            for _ in range(5):
                # So few that none can be written over before it's read, however long that takes.
                add(server, 60)
                shipper.wait_whole()
            add_large(server)
            shipper.wait_whole()
            add(server, 3)
            ships(shipper, "several checkpoints, and a large call", 1)
        add(server, 3)
        with Shipper(place.ship) as shipper:
            ships(shipper, "a shipper that was killed", 1)
            server.end()
            with place.server() as server:
                add(server, 3)
                ships(shipper, "a server that was killed", 1)
                shipper.process.send_signal(signal.SIGSTOP)
                add(server, 400)
                shipper.process.send_signal(signal.SIGCONT)
                ships(shipper, "a shipper that was too late", 2)
            subprocess.run([place.program, "check", "b.db"], check=True, stdout=subprocess.DEVNULL)
            with place.server() as server:
                add(server, 3)
                wait_until("a third series", lambda: len(series()) >= 3)
                # More where it was quicker than the server.
                ships(shipper, "a log that was cut by check", 3, math.inf)
    return "a series goes on over a killed shipper, a killed server and checkpoints"


def goes_back():
    """An older state in the place of the file is shipped as any, and each moment is restored as it was."""
    make_file(place.program)
    clear_other_place()
    states, before = [], now()
    with place.server() as server, Shipper(place.ship) as shipper:
        for _ in range(3):
            add(server, 2)
            shipper.wait_whole()
            states.append((now(), sorted(place.tasks_in("b.db"))))
            time.sleep(0.01)
        server.end()
        place.restore("older.db", "--at", states[0][0])
        clear("b.db")
        os.rename("older.db", "b.db")
        with place.server() as server:
            add(server, 1)
            wait_until("a series of the older state", lambda: len(series()) >= 2)
            # More where it was quicker than the server.
            ships(shipper, "an older state in the place of the file", 2, math.inf)
    for moment, tasks in states:
        place.restore("restored.db", "--at", moment)
        expect(f"the state of {moment}", sorted(place.tasks_in("restored.db")) == tasks)
    clear("restored.db")
    done = place.run_ship("--restore", str(TO), "restored.db", "--at", before)
    expect(f"a moment before the first: {done}", done.returncode == 1 and "begins at" in done.stderr and not os.path.exists("restored.db"))
    return f"{len(states)} moments are restored"


def thins():
    """What no moment that is kept needs is removed, and nothing else."""
    make_file(place.program)
    clear_other_place()
    with place.server() as server, Shipper(place.ship, "--anew", "0s", "--keep", "2s") as shipper:
        shipper.wait_whole()
        first = series()[0]
        wait_until("a second series", lambda: add(server, 1) or len(series()) > 1)
        second = series()[1]
        wait_until("the first series' removal", lambda: add(server, 1) or not first.exists())
        expect(f"{second} began 2 seconds before the first went", second.name[2:-7] <= time.strftime("%Y%m%dT%H%M%S", time.gmtime(time.time() - 1)))
        shipper.wait_whole()
        place.expect_same("the newest")
    return "older series go"


def stays_behind_faults():
    """What is damaged or not to be done is refused with a reason; a line without a folder, and a full disk, are tried again."""
    make_file(place.program)
    clear_other_place()
    TO.rmdir()
    with place.server() as server, Shipper(place.ship) as shipper:
        add(server, 1)
        wait_until("a fault is told", lambda: "No such file" in pathlib.Path("status").read_text() if os.path.exists("status") else False)
        TO.mkdir()
        ships(shipper, "a folder that was made later", 1)
        moment = now()
        time.sleep(0.01)
        add(server, 60)
        shipper.wait_whole()
    expect("it's whole", place.run_ship("--list", str(TO)).returncode == 0)
    expect("it's late", place.run_ship("--list", str(TO), "--late", "0s").returncode == 1)
    refuses()
    return damaged(moment)


def refuses():
    for words in ([], ["b.db"], ["--restore", "to"], ["--keep", "7", "b.db", "to"], ["--restore", "to", "x.db", "--at", "today"], ["b c.db", "to"], ["--list", "--receive", "to"]):
        expect(f"the words {words} are refused", place.run_ship(*words).returncode == 2)
    with open("b.db", "rb") as file:
        before = file.read()
    for words in (["to", "b.db"], ["missing", "x.db"], [".", "x.db"]):
        done = place.run_ship("--restore", *words)
        expect(f"{words} is refused: {done}", done.returncode == 1 and done.stderr.startswith("taskboard-ship: "))
    with open("b.db", "rb") as file:
        expect("the file that is there stays", file.read() == before)
    expect("nothing else was made", not os.path.exists("x.db") and not list(pathlib.Path(".").glob(".[bx].*")))


def verifies(what, status, said):
    done = place.run_ship("--verify", str(TO), "--late", "1d")
    expect(f"{what} is verified: {done}", done.returncode == status and said in done.stdout)


def damaged(moment):
    """A series that was damaged behind a moment is restored up to there alone, and isn't gone on with."""
    path = series()[0]
    whole = path.read_bytes()
    path.write_bytes(whole + b"P1\x10\x27\0\0" + b"\0" * 100)
    place.expect_same("a torn end")
    verifies("a torn end", 0, "restored, boards 1 ")
    path.write_bytes(whole[:-100] + bytes([whole[-100] ^ 1]) + whole[-99:])
    clear("restored.db")
    done = place.run_ship("--restore", str(TO), "restored.db")
    expect(f"damage is told: {done}", done.returncode == 1 and "damaged" in done.stderr and not os.path.exists("restored.db"))
    listed = place.run_ship("--list", str(TO), "--late", "1d")
    expect(f"a list tells it: {listed}", listed.returncode == 1 and f"DAMAGED: {path} from byte" in listed.stdout)
    verifies("a damaged series", 1, "NOT RESTORED")
    place.restore("restored.db", "--at", moment)
    expect("the state before the damage", len(place.tasks_in("restored.db")) == 1)
    with place.server() as server, Shipper(place.ship) as shipper:
        add(server, 1)
        wait_until("a series in the place of the damaged one", lambda: len(series()) == 2)
        ships(shipper, "a series behind a damaged one", 2)
    return "damage is told"


def finds_cuts():
    """A log that was cut in the middle is told, with the moment up to which the series has what it lost."""
    make_file(place.program)
    clear_other_place()
    with place.server() as server, Shipper(place.ship) as shipper:
        add(server, 5)
        shipper.wait_whole()
        tasks, moment = sorted(place.tasks_in("b.db")), now()
        server.end()
        cut_log("b.db-wal")
        wait_until("the cut is told", lambda: json.loads(pathlib.Path("status").read_text())["gone"])
        gone = json.loads(pathlib.Path("status").read_text())["gone"]
    expect(f"what is gone: {gone}", "was cut" in gone and gone.split()[-3] <= moment)
    expect("the file lacks tasks, and no check tells", len(place.tasks_in("b.db")) < len(tasks))
    place.restore("restored.db", "--at", gone.split()[-3])
    expect("the series has them", sorted(place.tasks_in("restored.db")) == tasks)
    return "a cut log is told"


def full_disk():
    """The other place is a disk that is full for a while."""
    make_file(place.program)
    clear_other_place()
    if subprocess.run(["mount", "-t", "tmpfs", "-o", "size=1m", "tmpfs", TO], capture_output=True).returncode:
        print("a full disk: skipped, since no disk can be mounted here")
        return None
    try:
        with place.server() as server, Shipper(place.ship) as shipper:
            shipper.wait_whole()
            filling = TO / "filling"
            with contextlib.suppress(OSError), open(filling, "wb", buffering=0) as file:
                while file.write(b"x" * 4096):
                    pass
            add(server, 60)
            wait_until("a fault is told", lambda: "No space" in pathlib.Path("status").read_text())
            filling.unlink(missing_ok=True)
            ships(shipper, "a disk that was full", 1)
    finally:
        subprocess.run(["umount", "-l", TO], check=True)
    return "a full disk is waited for"


def real_ssh():
    """The line is ssh, and the key at the other end lets nothing else be done."""
    if os.geteuid() or not os.path.exists(SSHD) or not shutil.which("ssh-keygen"):
        print("ssh: skipped, since sshd isn't there or needs another user")
        return None
    make_file(place.program)
    clear_other_place()
    for name in ("host", "mine"):
        pathlib.Path(name).unlink(missing_ok=True)
        subprocess.run(["ssh-keygen", "-q", "-t", "ed25519", "-N", "", "-f", name], check=True)
    key = pathlib.Path("mine.pub").read_text()
    pathlib.Path("keys").write_text(f'restrict,command="{place.ship} --receive {TO.absolute()}" {key}')
    os.makedirs("/run/sshd", exist_ok=True)
    here, port = os.getcwd(), place.port + 1
    pathlib.Path("sshd.conf").write_text(f"ListenAddress 127.0.0.1\nPort {port}\nHostKey {here}/host\nAuthorizedKeysFile {here}/keys\nStrictModes no\nUsePAM no\nPidFile none\nPermitRootLogin prohibit-password\n")
    daemon = subprocess.Popen([SSHD, "-D", "-e", "-f", f"{here}/sshd.conf"], stderr=open("sshd.log", "w"))
    ssh = f"ssh -F none -p {port} -i mine -o BatchMode=yes -o StrictHostKeyChecking=no -o UserKnownHostsFile=/dev/null -o LogLevel=ERROR"
    try:
        with place.server() as server, Shipper(place.ship, "--ssh", ssh, to="root@127.0.0.1:elsewhere") as shipper:
            add(server, 60)
            ships(shipper, "over ssh", 1)
            add(server, 60)
            ships(shipper, "over ssh again", 1)
    finally:
        daemon.kill()
        daemon.wait()
    return "over ssh too"


def main():
    begun, said = time.monotonic(), []
    scenes = {scene.__name__: scene for scene in (follows, goes_back, thins, finds_cuts, stays_behind_faults, full_disk, real_ssh)}
    for name in sys.argv[4:] or scenes:
        at = time.monotonic()
        said.append(scenes[name]())
        if os.environ.get("TELL"):
            print(f"{name}: {time.monotonic() - at:.1f} s", flush=True)
    print(f"{', '.join(filter(None, said))}: {time.monotonic() - begun:.0f} s", flush=True)


main()
