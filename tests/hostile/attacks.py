"""Attacks a service as contrib/systemd has it: python3 attacks.py PROGRAM TOP, as root, in a folder that it may write to, with a network
of its own in which 192.0.2.7 is an address of this machine."""
import contextlib
import errno
import json
import os
import pathlib
import re
import shlex
import shutil
import signal
import socket
import subprocess
import sys
import threading
import time

from connecting import connected
from expecting import expecting
from talking import KNOWN, answer_to, body_of, identified, message, status_of

PROGRAM, TOP = os.path.abspath(sys.argv[1]), pathlib.Path(sys.argv[2])
UNITS, REPORT = TOP / "contrib/systemd", TOP / "contrib/lib/report-failure"
OTHER_ADDRESS = "192.0.2.7"
# Who serves, and who attacks.
SERVER_USER, MALLORY = 65534, 65533
PATIENCE = 60 * float(os.environ.get("LONGEST", 2))
# What a line of the log has at most: 200 bytes of name, method and path, each of which may be written as four signs, and the rest.
LONGEST_LINE = 3 * 200 * 4 + 100
VIEW = message(b"GET", b"/me")
expect = expecting("attacks")


def wait_until(what, is_so):
    last = time.monotonic() + PATIENCE
    while not is_so():
        expect(f"{what}: not in {PATIENCE:.0f} s", time.monotonic() < last)
        time.sleep(0.02)


def setting(unit, name):
    found = re.findall(rf"(?m)^{name}=(.*)$", (UNITS / unit).read_text())
    expect(f"{unit} has {name}", found)
    return found[-1]


def port_of(unit):
    return int(re.search(r"(?m)^Environment=PORT=(\d+)$", (UNITS / unit).read_text())[1])


def command(unit, name, **more):
    """A command of a unit as systemd runs it, with the program and the page of this clone."""
    line = setting(unit, name).lstrip("+").replace("${PORT}", str(port_of(unit)))
    line = line.replace("/usr/local/bin/taskboard ", f"{PROGRAM} ").replace("/usr/local/share/taskboard/page", f"{TOP}/page")
    return shlex.split(line.replace("$$", "$").replace("%n", unit)), {**os.environ, "PORT": str(port_of(unit)), **more}


def as_user(user, capabilities):
    keep = f"-all,+{capabilities}" if capabilities else "-all"
    return ["setpriv", f"--reuid={user}", f"--regid={user}", "--clear-groups", f"--bounding-set={keep}", f"--inh-caps={keep}", f"--ambient-caps={keep}"]


class Service:
    """The unit's server, as its own user and with its capabilities alone. It is started anew, as soon as the unit says, until it is stopped."""

    def __init__(self, folder, errors=subprocess.DEVNULL, unit="taskboard.service"):
        self.unit, self.folder, self.errors, self.port, self.goes_on = unit, folder, errors, port_of(unit), True
        self.pause = float(re.fullmatch(r"(\d+)ms", setting(unit, "RestartSec"))[1]) / 1000
        self.starts, self.process = 0, None
        expect("it is started anew, whatever ended it", setting(unit, "Restart") == "always")
        expect("no more than so often", int(setting(unit, "StartLimitBurst")) > 0 and int(setting(unit, "StartLimitIntervalSec")) > 0)
        self.start()
        self.restarting = threading.Thread(target=self.restart, daemon=True)
        self.restarting.start()

    def start(self):
        words, environment = command(self.unit, "ExecStartPre")
        subprocess.run(words, env=environment, check=True)
        words, environment = command(self.unit, "ExecStart")
        user = as_user(SERVER_USER, setting(self.unit, "AmbientCapabilities").removeprefix("CAP_").lower())
        self.process = subprocess.Popen([*user, *words], cwd=self.folder, env=environment, stderr=self.errors)
        self.starts += 1
        words, environment = command(self.unit, "ExecStartPost", MAINPID=str(self.process.pid))
        waiting = subprocess.Popen(words, env=environment)
        while waiting.poll() is None:
            # (a process that ended is there until it's asked for)
            self.process.poll()
            time.sleep(0.01)

    def restart(self):
        while self.goes_on:
            self.process.wait()
            time.sleep(self.pause)
            if self.goes_on:
                self.start()

    def stop(self):
        self.goes_on = False
        while self.restarting.is_alive():
            self.process.kill()
            self.restarting.join(0.1)
        self.process.kill()
        self.process.wait()

    def __enter__(self):
        return self

    def __exit__(self, *_):
        self.stop()

    def ask(self, sent):
        """The answer to a message, or nothing if there was none."""
        with contextlib.suppress(OSError), socket.create_connection(("127.0.0.1", self.port), timeout=PATIENCE) as client:
            return answer_to(client, sent)
        return b""

    def answers(self):
        answer = self.ask(VIEW)
        return bool(answer) and status_of(answer) == 200


def new_file(folder):
    """A folder of the server's user with a new file of ann's."""
    folder.mkdir(exist_ok=True)
    for name in ("boards.db", "boards.db-wal"):
        (folder / name).unlink(missing_ok=True)
    os.chown(folder, SERVER_USER, SERVER_USER)
    subprocess.run([*as_user(SERVER_USER, ""), PROGRAM, "init", folder / "boards.db", "ann", "ann-key-1"], check=True)
    return folder


BINDER = """
import errno, socket, sys
port, seen = int(sys.argv[1]), set()
for family, address in ((socket.AF_INET, "127.0.0.1"), (socket.AF_INET, "0.0.0.0"), (socket.AF_INET6, "::")):
    try:
        with socket.socket(family) as one:
            one.setsockopt(socket.SOL_SOCKET, socket.SO_REUSEPORT, 1)
            one.bind((address, port))
            seen.add("BOUND")
    except OSError as fault:
        seen.add(errno.errorcode[fault.errno])
print(" ".join(sorted(seen)))
"""


def mallory_binds(port):
    """What comes of it when another user tries to listen on a port, at each address."""
    done = subprocess.run([*as_user(MALLORY, ""), sys.executable, "-c", BINDER, str(port)], capture_output=True, text=True, check=True)
    return set(done.stdout.split()) - {"EAFNOSUPPORT"}


def port_taken():
    """Nobody but root listens on the server's port: before it's started, while it runs and is killed, and after it was stopped."""
    port, found = port_of("taskboard.service"), []
    found.append(mallory_binds(port))
    with Service(new_file(pathlib.Path("taken"))) as service:
        expect("it is ready once it is started", service.answers())
        for _ in range(3):
            before = service.process.pid
            service.process.kill()
            while service.process.pid == before or not service.answers():
                found.append(mallory_binds(port))
    found.append(mallory_binds(port))
    expect(f"mallory tried {len(found)} times: {found}", all(each == {"EACCES"} for each in found))
    bound = pathlib.Path("/proc/sys/net/ipv4/ip_unprivileged_port_start")
    bound.write_text(str(port))
    try:
        words, environment = command("taskboard.service", "ExecStartPre")
        refused = subprocess.run(words, env=environment, capture_output=True, text=True)
        expect(f"a port that anybody may take is refused: {refused}", refused.returncode == 1 and "ip_unprivileged_port_start" in refused.stderr)
        expect("and could be taken", "BOUND" in mallory_binds(port))
    finally:
        bound.write_text("1024")
    return f"another user tried {len(found)} times to take the port"


def elsewhere():
    """Nothing listens on another address of the machine."""
    with Service(new_file(pathlib.Path("elsewhere"))) as service:
        expect("it answers", service.answers())
        try:
            socket.create_connection((OTHER_ADDRESS, service.port), timeout=PATIENCE).close()
        except OSError as fault:
            expect(f"another address: {fault}", fault.errno == errno.ECONNREFUSED)
            return "no other address answers"
    return sys.exit(f"attacks: something listens on {OTHER_ADDRESS}")


def hung_up():
    """HUP and INT end nothing."""
    with Service(new_file(pathlib.Path("hung-up"))) as service:
        before = service.process.pid
        for number in (signal.SIGHUP, signal.SIGINT):
            service.process.send_signal(number)
            expect(f"it answers after {number.name}", service.answers())
        expect("it is the same process", (service.process.pid, service.process.poll(), service.starts) == (before, None, 1))
    return "HUP and INT end nothing"


def readiness():
    """A start is over once the port answers, and failed if the process ends before."""
    folder = new_file(pathlib.Path("ready"))
    with subprocess.Popen(["sleep", "1000"]) as other:
        words, environment = command("taskboard.service", "ExecStartPost", MAINPID=str(other.pid))
        waiting = subprocess.Popen(words, env=environment)
        time.sleep(0.5)
        expect("it waits while nothing answers", waiting.poll() is None)
        other.kill()
        other.wait()
        expect("it ends with the process", waiting.wait(PATIENCE) == 1)
    with Service(folder) as service:
        connected(service.port, 1).close()
    return "a start waits for the port"


def adding(number):
    body = json.dumps({"description": f"Task {number} " + "x" * 3000}).encode()
    return message(b"POST", b"/boards/1/tasks", body, identified(number))


def full_disk():
    """While the disk is full each call that writes ends the server: it's back within its pause, shows what there is, and goes on with room."""
    disk = pathlib.Path("disk")
    disk.mkdir()
    subprocess.run(["mount", "-t", "tmpfs", "-o", "size=3m,mode=755", "tmpfs", disk], check=True)
    with Service(new_file(disk / "boards")) as service:
        expect("the first", status_of(service.ask(adding(1))) == 200)
        with contextlib.suppress(OSError), open(disk / "filling", "wb", buffering=0) as file:
            while file.write(b"x" * 4096):
                pass
        number, added = 2, [1]
        while (answer := service.ask(adding(number))) and status_of(answer) == 200:
            added.append(number)
            number += 1
        expect(f"it can't be stored: {answer[:200]}", not answer or status_of(answer) == 500)
        away = []
        for _ in range(3):
            begun = time.monotonic()
            wait_until("views while the disk is full", service.answers)
            away.append(time.monotonic() - begun)
            answer = service.ask(adding(number))
            expect(f"still not: {answer[:200]}", not answer or status_of(answer) == 500)
        (disk / "filling").unlink()
        wait_until("it goes on", lambda: (answer := service.ask(adding(number))) and status_of(answer) == 200)
        exported = json.loads(body_of(service.ask(message(b"GET", b"/boards/1/export"))))
        found = sorted(int(task["description"].split()[1]) for task in exported)
        expect(f"each once: {found}", found == [*added, number])
    return f"with a full disk it was away for at most {max(away):.2f} s"


# A journal as journalctl shows it by the fields that it is asked for: systemd's lines, and the server's, in which a line was forged.
JOURNAL = """#!/bin/sh
case "$*" in
*_PID=1*UNIT=*) echo "Main process exited, code=exited, status=1/FAILURE" ;;
*_SYSTEMD_UNIT=taskboard.service*|*_SYSTEMD_UNIT=taskboard@north.service*)
    printf '%s\\n' '20261125T060725Z ann GET /~!touch 404 18 0' '~!touch${IFS}FILE; 400 117 0' 'taskboard: Store' 'taskboard: Store ~!touch' \\
        'the file failed while GET /~!touch of ann was handled' 'taskboard: ~!touch' ;;
*_SYSTEMD_UNIT=*) echo "TASKBOARD CRITICAL - the newest copy is 3 days old" ;;
esac
"""
SYSTEMCTL = "#!/bin/sh\nexit 1\n"


def forged_line():
    """Whoever is told of a failure gets no text that a client chose, and the name of the fault."""
    programs = pathlib.Path("programs").resolve()
    programs.mkdir(exist_ok=True)
    for name, text in (("journalctl", JOURNAL), ("systemctl", SYSTEMCTL)):
        (programs / name).write_text(text)
        (programs / name).chmod(0o755)
    tell = pathlib.Path("tell").resolve()
    tell.write_text(f'#!/bin/sh\n{{ echo "$1"; cat; }} >{tell}.told\n')
    tell.chmod(0o755)
    script = pathlib.Path("report-failure")
    script.write_text(REPORT.read_text().replace("/etc/taskboard/tell", str(tell)).replace("/run/", f"{programs}/"))
    for unit, wanted in (
        ("taskboard.service", "taskboard: Store\n"),
        ("taskboard@north.service", "taskboard: Store\n"),
        ("taskboard-remind.service", ""),
        ("taskboard-watch.service", "TASKBOARD CRITICAL - the newest copy is 3 days old\n"),
    ):
        subprocess.run(["sh", script, unit], env={**os.environ, "PATH": f"{programs}:{os.environ['PATH']}"}, check=True)
        told = pathlib.Path(f"{tell}.told").read_text()
        expect(f"{unit} is told: {told}", told == f"{unit}\nMain process exited, code=exited, status=1/FAILURE\n{wanted}To read more: journalctl -u {unit}\n")
    return "no client's text is told"


def long_lines():
    """No line of the log is so long that a journal would cut it, or has a byte that isn't printed."""
    folder = new_file(pathlib.Path("long-lines"))
    with open("long-lines/log", "wb") as log, Service(folder, log) as service:
        for path in (b"/" + b"\x01" * 15000, b"/" + b"x" * 15000, b"/~!touch" + b"\xff" * 12000):
            service.ask(message(b"GET", path, fields=b"x-member: " + b"\x02" * 1000 + b"\r\nx-key: none\r\n"))
        expect("it answers", service.answers())
    lines = pathlib.Path("long-lines/log").read_bytes().splitlines()
    longest = max(map(len, lines))
    expect(f"the longest of {len(lines)} lines has {longest} bytes", len(lines) >= 6 and longest <= LONGEST_LINE)
    expect("all can be printed", all(32 <= byte < 127 for line in lines for byte in line))
    return f"the longest line has {longest} bytes"


def stalled_log():
    """A log that nobody reads holds nobody up, and what couldn't be written is counted once it is read again."""
    reading, writing = os.pipe()
    with Service(new_file(pathlib.Path("stalled")), writing) as service, connected(service.port, PATIENCE) as client:
        os.close(writing)
        for number in range(2000):
            answer = answer_to(client, message(b"GET", b"/" + b"x" * 3000, fields=KNOWN))
            expect(f"message {number}: {answer[:100]}", answer and status_of(answer) == 404)
            if b"connection: close" in answer:
                client.close()
                client = connected(service.port, PATIENCE)
        told = os.read(reading, 1 << 20)
        expect("it goes on", service.answers())
        wait_until("what is missing is counted", lambda: service.answers() and re.search(rb"\d+", os.read(reading, 1 << 20)))
    return f"a log that isn't read held nobody up; it had {len(told)} bytes"


ATTACKS = (port_taken, elsewhere, hung_up, readiness, full_disk, forged_line, long_lines, stalled_log)


def main():
    begun, said = time.monotonic(), []
    expect("curl is there", shutil.which("curl"))
    for attack in ATTACKS:
        said.append(attack())
    print(f"{'; '.join(said)}; in {time.monotonic() - begun:.0f} s")


main()
