"""Watches a server by the program taskboard-watch: python3 watch.py PROGRAM PORT CONTRIB, in a folder that it may write to. CONTRIB has the scripts."""
import collections
import contextlib
import datetime
import http.server
import importlib.machinery
import importlib.util
import io
import json
import os
import pathlib
import re
import shlex
import shutil
import sqlite3
import ssl
import subprocess
import sys
import threading
import time
import uuid

from expecting import expecting
from shipping import cut_log
from talking import KNOWN, Server, answer_to, make_file, message, status_of

PROGRAM, PORT, CONTRIB = sys.argv[1], int(sys.argv[2]), pathlib.Path(sys.argv[3])
WATCH = CONTRIB / "bin/taskboard-watch"
# Most looks are by the program's own function, since Python takes long to start on a busy machine.
sys.dont_write_bytecode = True
loader = importlib.machinery.SourceFileLoader("watch", str(WATCH))
the_watch = importlib.util.module_from_spec(importlib.util.spec_from_loader("watch", loader))
loader.exec_module(the_watch)
OK, WARNING, CRITICAL, UNKNOWN = range(4)
DAY, MIB, GIB = 86400, 2**20, 2**30
Disk = collections.namedtuple("Disk", "total used free")
# For how long another level than the expected one is tried for again.
PATIENCE = float(os.environ.get("PATIENCE", 60))
LINE = re.compile(r"TASKBOARD (OK|WARNING|CRITICAL) - [^|\n]+ \| ('\w+'=-?[\d.]+(s|B|c)?;[\d.:]*;[\d.:]*( |$))+\n?")
METRIC = re.compile(r'# (HELP|TYPE) taskboard_\w+ .+|(taskboard_\w+(?:\{\w+="[^"]*"(?:,\w+="[^"]*")*\})?) (-?[\d.]+)')
COPIES, STATE, LOG = pathlib.Path("copies"), pathlib.Path("state.json"), pathlib.Path("log")
# Programs of systemd, as far as they are asked.
SYSTEMCTL = """#!/bin/sh
case $1 in
show) echo {memory} ;;
is-failed) exit 1 ;;
list-units) printf '%s' '{failed}' ;;
esac
"""
JOURNALCTL = """#!/bin/sh
echo "$@" >>asked
cat journal
echo '-- cursor: s=1;i=2'
"""
said = 0
expect = expecting("watch")


def line_of(*words, server=PORT, headers="watch.headers"):
    return list(map(str, ["--server", f"127.0.0.1:{server}", "--headers", headers, "--file", "b.db", *words]))


def watch(*words, **more):
    """The status of a look, and what it prints."""
    printed = io.StringIO()
    with contextlib.redirect_stdout(printed):
        return the_watch.main(line_of(*words, **more)), printed.getvalue()


def watch_by_itself(*words, **more):
    done = subprocess.run([sys.executable, WATCH, *line_of(*words, **more)], capture_output=True, text=True)
    return done.returncode, done.stdout


def finds(level, text, *words, looks=watch, **more):
    """That a look ends with this level, and tells this. A busy machine may be slow to answer, so another level is tried for again."""
    global said
    last = time.monotonic() + PATIENCE
    while True:
        status, line = looks(*words, **more)
        expect(f"one line: {line!r}", level == UNKNOWN and line.count("\n") == 1 or LINE.fullmatch(line))
        if status == level and text in line:
            said += 1
            return line
        expect(f"{level} with '{text}' was expected of {words}, and it ended with {status}: {line}", time.monotonic() < last)
        time.sleep(0.1)


def post(client, target, body):
    identified = KNOWN + b"x-request-id: %s\r\n" % str(uuid.uuid4()).encode()
    expect(f"{target} {body}", status_of(answer_to(client, message(b"POST", target, json.dumps(body).encode(), identified))) == 200)


def write_headers(name, key, mode=0o600):
    path = pathlib.Path(f"{name}.headers")
    path.write_text(f"x-member: watch\nx-key: {key}\n")
    path.chmod(mode)


def stamp(seconds_ago):
    moment = datetime.datetime.now(datetime.timezone.utc) - datetime.timedelta(seconds=seconds_ago)
    return moment.strftime("%Y%m%dT%H%M%SZ")


def looks_at_the_server(server):
    line = finds(OK, "a view took")
    expect(f"the sizes are told: {line}", f"'file_bytes'={os.stat('b.db').st_size}B" in line)
    finds(CRITICAL, "answered 401", headers="wrong.headers")
    finds(WARNING, "chmod 600", headers="open.headers")
    finds(UNKNOWN, "needs the lines", headers="none.headers")
    finds(CRITICAL, "no answer from", server=PORT + 1, looks=watch_by_itself)
    expect("by itself it says so too", watch_by_itself()[1].startswith("TASKBOARD "))
    with server.connect() as client:
        post(client, b"/boards/1/roles", {"member": "watch", "role": "reader"})
        finds(WARNING, "watch has a role on a board")
        post(client, b"/boards/1/roles", {"member": "watch", "role": None})
    finds(OK, "a view took")


class Other(http.server.BaseHTTPRequestHandler):
    """A server that answers something else, or the right thing after more than a second."""

    answer, seconds = b"Hello", 0

    def do_GET(self):
        time.sleep(self.seconds)
        self.send_response(200)
        self.end_headers()
        self.wfile.write(self.answer)

    def log_message(self, *_):
        pass


def looks_at_other_servers():
    other = http.server.HTTPServer(("127.0.0.1", 0), Other)
    threading.Thread(target=other.serve_forever, daemon=True).start()
    said = finds(CRITICAL, "is no server of boards", server=other.server_port)
    expect(f"nothing that another server says is repeated: {said}", "Hello" not in said)
    Other.answer, Other.seconds = b'{"boards":[],"name":"watch"}', 1.1
    finds(WARNING, "a view took", server=other.server_port)
    other.shutdown()


def looks_at_copies():
    finds(CRITICAL, "No such file", "--copies", "nowhere")
    COPIES.mkdir()
    finds(CRITICAL, "there is no copy", "--copies", COPIES)
    environment = {**os.environ, "TASKBOARD": PROGRAM}
    done = subprocess.run([CONTRIB / "bin/taskboard-backup", "b.db", COPIES], env=environment, capture_output=True, text=True, check=True)
    copy = pathlib.Path(done.stdout.split(" ", 1)[0])
    finds(OK, "the newest copy is", "--copies", COPIES)
    (COPIES / f"b-{stamp(-3 * DAY)}.db").write_text("of a clock that was wrong")
    for age, level, text in ((30 * 3600, WARNING, "30.0 h"), (3 * DAY, CRITICAL, "3 days")):
        copy = copy.rename(COPIES / f"b-{stamp(age)}.db")
        finds(level, f"the newest copy is {text} old", "--copies", COPIES)
    copy.write_text("no database, but long enough to be taken for one at first sight" * 100)
    copy.rename(COPIES / f"b-{stamp(60)}.db")
    finds(WARNING, "can't be read", "--copies", COPIES)
    shutil.rmtree(COPIES)


def looks_at_large_boards():
    """A board above 9,000 tasks, in a copy of a file that has it."""
    init = [PROGRAM, "init", "large.db", "ann", "ann-key-1"]
    subprocess.run(init, check=True)
    tasks = "\n".join(json.dumps({"description": f"Task {number}", "uuid": str(uuid.uuid4())}) for number in range(9001))
    line = [PROGRAM, "import", "large.db", "ann", "ann-key-1", str(uuid.uuid4()), "1", "json", "--all"]
    subprocess.run(line, input=tasks, text=True, check=True, stdout=subprocess.DEVNULL)
    COPIES.mkdir()
    pathlib.Path("large.db").rename(COPIES / f"b-{stamp(60)}.db")
    finds(WARNING, "board 1 has 9001 of 10,000 tasks", "--copies", COPIES)
    shutil.rmtree(COPIES)


def looks_at_growth():
    """Made-up sizes of seven days ago, of a file that grew, and of disks that are full in 20 and in 3 days."""
    held = sum(os.stat(name).st_size for name in ("b.db", "b.db-wal"))
    disk = roomy(".")
    for days, level in ((1000, OK), (20, WARNING), (3, CRITICAL)):
        used = disk.used - disk.free * 7 / days
        STATE.write_text(json.dumps({"samples": [[time.time() - 7 * DAY, held - 14 * MIB, used, used]]}))
        line = finds(level, "the disk of the file is full in" if level else "2.0 MiB more a day", "--state", STATE)
        found = float(re.search(r"'disk_full_days_file'=([\d.]+);30:;7:", line)[1])
        expect(f"about {days} days: {line}", 0.5 * days < found < 2 * days)
    samples = json.loads(STATE.read_text())["samples"]
    expect(f"a size was kept: {samples}", len(samples) == 2 and samples[1][0] - samples[0][0] > 6 * DAY)
    STATE.write_text("{")
    finds(UNKNOWN, "remove it", "--state", STATE)
    STATE.unlink()


def roomy(_):
    """A disk that has room, whatever this machine's has."""
    return disk_with(900 * GIB)


def disk_with(free, total=1000 * GIB):
    return Disk(total, total - free, free)


def looks_at_room():
    """Less than a tenth or than 1 GiB is a warning, and less than the file takes critical."""
    for free, total, level, said in (
        (101 * GIB, 1000 * GIB, OK, "a view took"),
        (99 * GIB, 1000 * GIB, WARNING, "the disk of the file has 101376.0 MiB free of 1024000.0 MiB"),
        (GIB + MIB, 5 * GIB, OK, "a view took"),
        (GIB - MIB, 5 * GIB, WARNING, "the disk of the file has 1023.0 MiB free of 5120.0 MiB"),
        (1000, 5 * GIB, CRITICAL, "less than the file and its log take"),
    ):
        the_watch.shutil.disk_usage = lambda _: disk_with(free, total)
        finds(level, said)
    the_watch.shutil.disk_usage = roomy


def looks_at_rows():
    """So many rows that an opening takes long, in a copy that has them."""
    COPIES.mkdir()
    for rows, level, said in ((999_000, OK, "a view took"), (1_000_001, WARNING, "takes some 10 s"), (6_000_001, CRITICAL, "takes some 60 s")):
        copy = COPIES / f"b-{stamp(60)}.db"
        with contextlib.closing(sqlite3.connect(copy)) as made, made:
            made.executescript("CREATE TABLE board(id INTEGER PRIMARY KEY); CREATE TABLE task(board, place); CREATE TABLE link(board, place)")
            made.execute("INSERT INTO link(rowid) VALUES (?)", (rows,))
        finds(level, said, "--copies", COPIES)
        copy.unlink()
    COPIES.rmdir()


def looks_at_the_log(server):
    """A log that was cut since the last look, and one that went on or was begun anew."""
    place = pathlib.Path("cut.db")
    words = ["--server", f"127.0.0.1:{PORT}", "--headers", "watch.headers", "--file", place, "--state", STATE]

    def look(level, said):
        printed = io.StringIO()
        with contextlib.redirect_stdout(printed):
            status = the_watch.main(list(map(str, words)))
        expect(f"{level} with {said} of a log: {printed.getvalue()}", status == level and said in printed.getvalue())

    with server.connect() as client:
        for number in (1, 2):
            post(client, b"/boards/1/tasks", {"description": f"Task {number}"})
            for end in ("", "-wal"):
                shutil.copy(f"b.db{end}", f"{place}{end}")
            look(OK, "a view took")
    cut_log(f"{place}-wal")
    for _ in range(2):
        look(CRITICAL, "cut.db-wal was cut: commits are gone")
    subprocess.run([PROGRAM, "check", place], check=True, stdout=subprocess.DEVNULL)
    look(OK, "a view took")
    STATE.unlink()
    place.unlink()


def looks_at_certificates():
    """Certificates that end in 30, 10 and 2 days, as a proxy shows them."""
    if not shutil.which("openssl"):
        return print("certificates: skipped, since openssl isn't there")
    for days, level, said in ((30, OK, "a view took"), (10, WARNING, "ends in 10 days"), (2, CRITICAL, "ends in 2 days")):
        made = ["openssl", "req", "-x509", "-newkey", "rsa:2048", "-nodes", "-days", str(days), "-subj", "/CN=boards.example.org", "-keyout", "key.pem", "-out", "certificate.pem"]
        subprocess.run(made, check=True, stderr=subprocess.DEVNULL)
        context = ssl.SSLContext(ssl.PROTOCOL_TLS_SERVER)
        context.load_cert_chain("certificate.pem", "key.pem")
        proxy = http.server.ThreadingHTTPServer(("127.0.0.1", 0), Other)
        proxy.socket = context.wrap_socket(proxy.socket, server_side=True)
        threading.Thread(target=proxy.serve_forever, daemon=True).start()
        finds(level, said, "--tls", f"boards.example.org:{proxy.server_port}")
        proxy.shutdown()
        proxy.server_close()
    return finds(CRITICAL, "no certificate of", "--tls", f"boards.example.org:{proxy.server_port}")


def looks_at_memory():
    wanted = int(re.search(r"'opening_memory_bytes'=(\d+)B", finds(OK, "opening takes up to"))[1])
    finds(OK, "opening takes up to", "--memory", 3 * wanted)
    finds(WARNING, "that it may have", "--memory", wanted + MIB)
    finds(CRITICAL, "that it may have", "--memory", wanted - MIB)
    return wanted


def looks_at_shipped():
    for what, level, text in (
        ({"whole": stamp(5)[:-1] + ".123Z"}, OK, "the shipped log is"),
        ({"whole": stamp(120)[:-1] + ".123Z", "fault": "no line"}, WARNING, "s old: no line"),
        ({"whole": stamp(7200)}, CRITICAL, "the shipped log is 2.0 h old"),
        ({"whole": stamp(5), "gone": "the log was cut"}, CRITICAL, "the log was cut"),
        ({"whole": None, "fault": "no line"}, CRITICAL, "nothing is shipped yet: no line"),
        ({}, CRITICAL, "doesn't say how far"),
    ):
        pathlib.Path("shipped").write_text(json.dumps(what))
        finds(level, text, "--shipped", "shipped")
    finds(CRITICAL, "doesn't say how far", "--shipped", "nowhere")


def write_program(name, text):
    path = pathlib.Path("programs") / name
    path.parent.mkdir(exist_ok=True)
    path.write_text(text)
    path.chmod(0o755)


def looks_at_units(wanted):
    """What systemd tells: units that failed, and how much memory the unit may have; and whether anybody may take the port of a unit."""
    words = ("--unit", "taskboard.service")
    write_program("systemctl", SYSTEMCTL.format(memory="infinity", failed=""))
    finds(WARNING, f"any user may listen on port {PORT}", *words)
    the_watch.first_port_of_users = lambda: PORT + 1
    finds(OK, "a view took", *words)
    write_program("systemctl", SYSTEMCTL.format(memory="infinity", failed="taskboard-watch.service loaded failed failed Watch\\n"))
    finds(OK, "a view took", *words)
    write_program("systemctl", SYSTEMCTL.format(memory="infinity", failed="taskboard-backup.service loaded failed failed Copies\\n"))
    finds(CRITICAL, "failed: taskboard-backup.service", *words)
    write_program("systemctl", SYSTEMCTL.format(memory=wanted + MIB, failed=""))
    finds(WARNING, "that it may have", *words)
    write_program("systemctl", "#!/bin/sh\necho no bus >&2\nexit 1\n")
    finds(WARNING, "no bus", *words)


def command_of(unit, name, setting):
    """A command of a unit, as systemd runs it for the unit of this name, but in this folder."""
    line = re.search(rf"(?m)^{setting}=\+?(.*)$", (CONTRIB / "systemd" / unit).read_text())[1]
    here = line.replace("/usr/local/lib/taskboard/report-failure", "sh ./report-failure")
    return shlex.split(here.replace("$$", "$").replace("%n", name).replace("%i", name))


def tells_failures():
    """What the units run when a server ends, and how often a failure is told."""
    write_program("systemctl", '#!/bin/sh\n[ "$1" = is-failed ] && exec test -e is-failed\necho "$@" >>asked_of_systemd\n')
    write_program("journalctl", '#!/bin/sh\ncase "$*" in *_PID=1*) echo "$5 failed" ;; esac\n')
    script = (CONTRIB / "lib/report-failure").read_text()
    pathlib.Path("report-failure").write_text(script.replace("/etc/taskboard/", "./").replace("/run/", "./"))
    pathlib.Path("tell").write_text('#!/bin/sh\necho "$1: $(cat)" >>told\n')
    pathlib.Path("tell").chmod(0o755)
    asked = pathlib.Path("asked_of_systemd")
    for unit, name in (("taskboard.service", "taskboard.service"), ("taskboard@.service", "taskboard@north.service")):
        for result in ("success", "exit-code", "signal", "oom-kill"):
            asked.write_text("")
            subprocess.run(command_of(unit, name, "ExecStopPost"), env={**os.environ, "SERVICE_RESULT": result}, check=True)
            wanted = "" if result == "success" else f"start --no-block taskboard-failed@{name}.service\n"
            expect(f"{name} ended with {result}: {asked.read_text()}", asked.read_text() == wanted)
    for ago, is_failed, is_due in ((0, False, True), (0, False, False), (59, False, False), (61, False, True), (0, True, True), (0, True, False)):
        told, before = pathlib.Path("taskboard-told-a.service"), time.time() - 60 * ago
        if told.exists():
            os.utime(told, (before, before))
        if is_failed:
            pathlib.Path("is-failed").touch()
        condition, start = (command_of("taskboard-failed@.service", "a.service", f"Exec{word}") for word in ("Condition", "Start"))
        expect(f"{ago} min after it was told", (subprocess.run(condition).returncode == 0) == is_due)
        if is_due:
            subprocess.run(start, check=True)
    expect("what is told", pathlib.Path("told").read_text() == "a.service: UNIT=a.service failed\nTo read more: journalctl -u a.service\n" * 3)
    names = re.findall(r'Fault::\w+ => "(\w+)"', (CONTRIB.parent / "crates/tb_program/src/fault.rt").read_text())
    known = re.search(r"(?m)^faults='(.*)'$", script)[1].split("|")
    expect(f"the names of faults: {names}", len(names) > 10 and set(names) == set(known))


def metrics_of(text):
    found = [METRIC.fullmatch(line) for line in text.splitlines()]
    expect(f"text for Prometheus: {text}", found and all(found))
    return {each[2]: float(each[3]) for each in found if each[2]}


def metrics(*words, looks=watch, **more):
    status, text = looks("--metrics", *words, **more)
    expect(f"metrics: {status}, {text}", status == OK)
    return metrics_of(text)


def answers_in(log):
    return collections.Counter(line.split()[4] for line in log.read_text().splitlines() if len(line.split()) == 7)


def counted(found):
    return {each[1]: int(value) for name, value in found.items() if (each := re.fullmatch(r'taskboard_answers_total\{status="(\d+)"\}', name))}


def counts_answers(server):
    """Each line of the log is counted once: over many looks, by several at once, and after the log was begun anew."""
    found = metrics("--state", STATE)
    expect(f"sizes: {found}", found["taskboard_file_bytes"] == os.stat("b.db").st_size and found["taskboard_up"] == 1)
    with server.connect() as client:
        for number in range(50):
            answer_to(client, message(b"GET", b"/boards/%d/list" % (1 + number % 2)))
    while answers_in(LOG)["404"] < 25:
        time.sleep(0.02)
    # (of a server that isn't there, so that no look adds a line of its own)
    words, nowhere = ("--state", STATE, "--log", LOG), {"server": PORT + 1}
    looks = [threading.Thread(target=metrics, args=words, kwargs={**nowhere, "looks": watch_by_itself}) for _ in range(4)]
    for look in looks:
        look.start()
    for look in looks:
        look.join()
    found = metrics(*words, **nowhere)
    expect(f"answers: {counted(found)}, {answers_in(LOG)}", found["taskboard_up"] == 0 and counted(found) == answers_in(LOG))
    count = found["taskboard_answer_seconds_count"]
    expect(f"times: {found}", count == sum(answers_in(LOG).values()) == found['taskboard_answer_seconds_bucket{le="+Inf"}'])
    before = answers_in(LOG)
    LOG.rename("log.1")
    LOG.write_text("20261125T060725Z ann POST /boards/1/tasks 200 187 3\n20261125T060725Z ann POST /boards/1/tasks 503 1")
    found = metrics(*words, **nowhere)
    expect(f"a new log: {counted(found)}, {before}", counted(found) == before + collections.Counter({"200": 1}))
    with LOG.open("a") as log:
        log.write("87 4000\n")
    found = metrics(*words, **nowhere)
    expect(f"a line that is whole now: {counted(found)}", counted(found)["503"] == 1)
    expect("and its time", found['taskboard_answer_seconds_bucket{le="3"}'] == sum(counted(found).values()) - 1)


def counts_in_the_journal():
    STATE.unlink()
    write_program("systemctl", SYSTEMCTL.format(memory="infinity", failed=""))
    write_program("journalctl", JOURNALCTL)
    pathlib.Path("journal").write_text("20261125T060725Z ann POST /boards/1/tasks 200 187 3\ntaskboard: serving b.db\n")
    for times in (1, 2):
        found = metrics("--state", STATE, "--unit", "taskboard.service")
        expect(f"the lines are counted: {counted(found)}", counted(found) == {"200": times})
    asked = pathlib.Path("asked").read_text().splitlines()
    expect(f"it goes on where it ended: {asked}", "--since=-1d" in asked[0] and "--after-cursor=s=1;i=2" in asked[1])


def main():
    begun = time.monotonic()
    os.environ["PATH"] = f"{pathlib.Path('programs').resolve()}:{os.environ['PATH']}"
    the_watch.shutil.disk_usage = roomy
    make_file(PROGRAM)
    write_headers("watch", "watch-key-1")
    write_headers("wrong", "watch-key-2")
    write_headers("open", "watch-key-1", 0o644)
    pathlib.Path("none.headers").write_text("x-member: watch\n")
    with LOG.open("w") as log, Server(PROGRAM, PORT, words=("--forever", "--log"), errors=log) as server:
        with server.connect() as client:
            post(client, b"/people", {"name": "watch", "key": "watch-key-1"})
        looks_at_the_server(server)
        looks_at_other_servers()
        looks_at_copies()
        looks_at_large_boards()
        looks_at_room()
        looks_at_rows()
        looks_at_the_log(server)
        looks_at_certificates()
        looks_at_growth()
        wanted = looks_at_memory()
        looks_at_shipped()
        looks_at_units(wanted)
        tells_failures()
        counts_answers(server)
        counts_in_the_journal()
    finds(CRITICAL, "no answer from")
    expect("words that are none", watch_by_itself("--port", "1")[0] == UNKNOWN and watch_by_itself("--help")[0] == OK)
    print(f"{said} findings with their levels, each answer counted once, in {time.monotonic() - begun:.0f} s")


main()
