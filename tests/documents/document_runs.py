"""Runs the commands that the documents show, and compares what they print with what stands behind them: python3 document_runs.py PROGRAM PORT, in a
folder that it may write to.

A block is lines of four spaces, or of a fence marked `sh` that is followed by one marked `text`."""
import contextlib
import json
import os
import pathlib
import re
import shutil
import sqlite3
import subprocess
import sys
import urllib.request

from talking import Server, make_file

PROGRAM, PORT = sys.argv[1], int(sys.argv[2])
TOP = pathlib.Path(__file__).resolve().parents[2]
# Three tasks, as the machine's own Taskwarrior might export them.
EXPORTED = json.dumps([{"description": f"Task {number}", "uuid": f"dddddddd-dddd-4ddd-8ddd-{number:012d}"} for number in range(3)])
COMMAND = re.compile(r"(?:curl|task export|printf|who=|id\(\)|t=|at=)")
# What a block of a shell's begins with, and no block of a unit, a configuration or a log.
SHELL = r"(?:[\w-]+\(\) \{|\w+=\$|(?:apt-get|cat|cp|id|install|journalctl|nginx|openssl|printf|runuser|scp|sh|systemctl|taskboard\S*|useradd) )"
FIRST_TASK = "00000001-0000-8000-8000-000000000001"
ran = []


def identifier(number):
    return f"00000000-0000-4000-8000-{number:012d}"


def blocks_of(name):
    """The blocks of a document, each with the text before it."""
    found, text = [], []
    for line in (TOP / name).read_text().split("\n"):
        if line.startswith("    "):
            if not found or text:
                found.append(("\n".join(text), []))
                text = []
            found[-1][1].append(line[4:])
        elif line or text or not found:
            text.append(line)
        else:
            found[-1][1].append("")
    return [(before, "\n".join(lines).strip("\n")) for before, lines in found]


def run(script):
    """What a shell prints of a script, in which the program is the one that is tried, and the port another."""
    script = script.replace("127.0.0.1:920", "127.0.0.1:8080").replace("127.0.0.1:8080", f"127.0.0.1:{PORT}").replace("--port 8080", f"--port {PORT}")
    before = f"task() {{ printf '%s' '{EXPORTED}'; }}\n"
    done = subprocess.run(["sh", "-c", before + script], capture_output=True, text=True, timeout=60)
    if done.returncode:
        sys.exit(f"{script}\nended with {done.returncode}: {done.stdout}{done.stderr}")
    return done.stdout.replace("\r", "").strip("\n")


def without_moments(text):
    """A history has the moments at which it is tried."""
    return re.sub(r'"moment":"\d{8}T\d{6}Z"', '"moment":".."', text)


def compare(name, script, wanted):
    printed = run(script)
    if without_moments(printed) != without_moments(wanted.strip("\n")):
        sys.exit(f"{name}: {script.splitlines()[-1]}\nis said to print\n{wanted}\nand prints\n{printed}")
    ran.append(name)


def fenced(name):
    """Each block of a shell that is followed by what it prints."""
    pairs = re.findall(r"(?ms)^```sh\n(.*?)^```\n\s*^```text\n(.*?)^```$", (TOP / name).read_text())
    for script, wanted in pairs:
        compare(name, script, wanted)


def block_with(name, text):
    """The first block of a document that has this text, as its lines."""
    return next(block for _, block in blocks_of(name) if text in block).splitlines()


def first_run():
    """The README's script, and the block that it prints."""
    before, wanted = next(block for block in blocks_of("README.md") if block[0].strip().endswith("It prints"))
    compare("README.md", re.findall(r"`(\./taskboard run [^`]+)`", before)[-1], wanted)


def expect(name, command, wanted):
    """Runs a command that has to print this text among others."""
    printed = run(command)
    if wanted not in printed:
        sys.exit(f"{name}: {command}\nprints no {wanted}, but\n{printed}")
    ran.append(name)


def readme():
    """The README's file of boards: made, served with its page, asked by its commands, and read by the program once it isn't served."""
    init, serve = block_with("README.md", "--page")
    asked, taken = block_with("README.md", "taskboard send"), block_with("README.md", "taskboard import")
    run(init)
    file, words = re.fullmatch(r".* serve (\S+) --port 8080 (.*)", serve).groups()
    with Server(PROGRAM, PORT, file, words=words.split(), errors=subprocess.DEVNULL):
        with urllib.request.urlopen(f"http://127.0.0.1:{PORT}/", timeout=10) as answer:
            if answer.read() != (TOP / "page/index.html").read_bytes():
                sys.exit(f"README.md: {serve}\nserves another page")
        wanted = ('"dropped":0', "1 of 1 tasks", '"more":false', '"more":false', '"two litres"', "x 20")
        for command, text in zip(asked, wanted, strict=True):
            if shutil.which("curl") or not command.startswith("curl"):
                expect("README.md", command.replace("curl ", "curl -s "), text)
    for command, text in zip(taken, ('"new":3', "3 of 4 tasks", "boards 1 tasks 4 faults 0", "faults 0"), strict=True):
        expect("README.md", command, text)
    if len(os.listdir("copies")) != 1:
        sys.exit(f"README.md: {taken[-1]}\nmakes no copy")


def using():
    """The commands of USING.md: what is sent to a server, a full board's way to another, imports into the file, and a line of todo.txt."""
    name = "docs/USING.md"
    make_file(PROGRAM)
    with Server(PROGRAM, PORT, words=("--forever",), errors=subprocess.DEVNULL):
        for command, text in zip(block_with(name, "Call bank"), ('"dropped":0', '"dropped":0', "-000000000002"), strict=True):
            expect(name, command, text)
        if shutil.which("curl"):
            expect(name, "\n".join(block_with(name, "split -l")), '"known":0,"more":false,"new":1')
        expect(name, block_with(name, "Water plants")[0], '"dropped":0,"more":')
    whole = next(line for line in block_with(name, "--all") if "--all" in line)
    for command, text in ((block_with(name, "taskboard import b.db")[0], '"new":3'), (whole, '"known":3')):
        expect(name, "id=00000000-0000-4000-8000-000000000003\n" + command, text)
    line = block_with(name, "uuid:")[0]
    sent = "\t".join(("20260401T000000Z", "root", "root-key-1", "{}", "import-todo", "1", line))
    shown = "20260401T000000Z\troot\troot-key-1\t{}\ttodo\t1"
    expect(name, f"printf '%s\\n' '{sent.format(identifier(1))}' '{shown.format(identifier(2))}' | taskboard run", "\n" + line)
    answers = "\n".join(path.read_text() for path in TOP.glob("crates/tests/data/*.answers")).split("\n")
    for answer in block_with(name, "BadLine"):
        if answer not in answers:
            sys.exit(f"{name}: no script is answered {answer}")


BAD_PAIR = '{"field":"BadPair","name":"BadTask","refused":8}'
# What a member needs beside it in a new task, and what is answered to one that stands there in vain.
BESIDE = {"recur": {"due": "20260131T090000Z"}, "end": {"status": "completed"}, "uuid": {"uuid": identifier(7)}}
IN_VAIN = {"parent": BAD_PAIR, "imask": BAD_PAIR, "mask": '"dropped":1'}


def members_of_a_task():
    """Each member of HTTP.md's table with its example: a new task takes it, or refuses it as the text says, and `modify` takes it or not as its row says."""
    rows = re.findall(r"(?m)^\| (?:`(\w+)`|any other) \| .* \| `(.*)` \| (yes|no)[^|]* \|$", (TOP / "docs/HTTP.md").read_text())
    lines, wanted = ['add\t1\t{"description":"a"}'], ['"dropped":0']
    for member, example, may in rows:
        given = json.loads(f'{{"{member}":{example}}}' if member else f"{{{example}}}")
        new = {"description": "b", **given, **BESIDE.get(member, {})}
        lines += [f"add\t1\t{json.dumps(new)}", f"modify\t1\t{FIRST_TASK}\t{json.dumps(given)}"]
        refused = BAD_PAIR if member == "recur" else f'{{"field":"{member}","name":"BadBody"}}'
        wanted += [IN_VAIN.get(member, '"dropped":0'), '"more":false' if may == "yes" else refused]
    script = "".join(f"20260101T000000Z\troot\troot-key-1\t{identifier(at)}\t{line}\n" for at, line in enumerate(lines, 1))
    answers = subprocess.run([PROGRAM, "run"], input=script, capture_output=True, text=True, check=True).stdout.splitlines()
    for line, answer, text in zip(lines, answers, wanted, strict=True):
        if text not in answer:
            sys.exit(f"docs/HTTP.md: {line} is answered {answer}, and not {text}")
    return len(rows)


def asked_by_curl():
    """The commands of HTTP.md in their order, each with the answer that stands below it."""
    make_file(PROGRAM)
    lines = "\n".join(block for _, block in blocks_of("docs/HTTP.md")).split("\n")
    starts = [at for at, line in enumerate(lines) if COMMAND.match(line)] + [len(lines)]
    known = ""
    os.mkdir("small")
    pathlib.Path("small/index.html").write_text("<p>Hi</p>")
    with Server(PROGRAM, PORT, words=("--page", "small", "--forever"), errors=subprocess.DEVNULL):
        for at, end in zip(starts, starts[1:]):
            command, wanted = lines[at], "\n".join(lines[at + 1 : end]).strip("\n")
            if re.match(r"who=|id\(\)|t=|at=", command):
                known += command + "\n"
            elif wanted:
                # (whatever it is, it is answered the same when it is sent again)
                for _ in range(2):
                    compare("docs/HTTP.md", known + command.replace("curl ", "curl -s "), wanted)
            elif not run(known + command.replace("curl ", "curl -s ")):
                sys.exit(f"docs/HTTP.md: {command} prints nothing")


def answers_of_examples():
    """How many answers stand below the headings of scripts; each has to be a line of the answers that `scripts.py` compares."""
    count, answers = 0, []
    for line in (TOP / "tests/data/examples.txt").read_text().split("\n"):
        if heading := re.match(r"(\w+): ", line):
            name, answers = heading[1], (TOP / f"crates/tests/data/{heading[1]}.answers").read_text().split("\n")
        elif line.startswith("< "):
            count += 1
            if line[2:] not in answers:
                sys.exit(f"tests/data/examples.txt: {name} isn't answered {line[2:]}")
    return count


def operating():
    """Each block of OPERATING.md that is a shell's can be read by one. The first file, people and the trial of a copy go as they are written, but for what
    only root may do, and in other folders."""
    name = "docs/OPERATING.md"
    for _, block in blocks_of(name):
        if re.match(SHELL, block) and subprocess.run(["sh", "-n", "-c", block]).returncode:
            sys.exit(f"{name}: no shell reads\n{block}")
    if not shutil.which("curl"):
        return
    os.symlink("contrib/bin/taskboard-backup", "taskboard-backup")
    made = [*block_with(name, "install -d -o taskboard -g taskboard -m 0700 /var/lib/taskboard /var/backups/taskboard"), *block_with(name, "key=$(head")]
    run(on_this_machine(made) + '\nprintf %s "$key" >key')
    with Server(PROGRAM, PORT, "lib/boards.db", words=("--forever",), errors=subprocess.DEVNULL):
        asked = [*block_with(name, "board() {"), *block_with(name, "bobs=$(head")]
        expect(name, on_this_machine(asked), '{"person":"bob"}\n{"added":0,"board":1,"more":false}')
        expect(name, on_this_machine(keys_and_boards(name)), '{"person":"bob"}\n' * 2 + '{"added":0,"board":1,"more":false}\n' * 2 + "all")
        given, lost = (re.search(rf"`({begin} [^`]+)`", (TOP / name).read_text())[1] for begin in ("taskboard send [^`]+ key bob", "runuser [^`]+ taskboard key"))
        expect(name, f"bobs=bob-key-03\nTASKBOARD_KEY=$(cat key) {given}", '{"person":"bob"}')
        run("taskboard-backup lib/boards.db backups")
    tried = block_with(name, "newest=$(ls")
    expect(name, on_this_machine(["key=$(cat key)", *tried]), "boards 1 tasks 0 faults 0")
    expect(name, on_this_machine([f"key=$({lost})", 'taskboard list lib/boards.db ann "$key" 1 >listed && echo in']), "in")


def keys_and_boards(name):
    """The calls of OPERATING.md that change keys and boards, each under an identifier of its own, and of the board that is there."""
    lines = [line.replace("/boards/7/", "/boards/1/") for line in block_with(name, '{"key":null}')]
    calls = [line for call in lines for line in ("id=$(cat /proc/sys/kernel/random/uuid)", call)]
    return [block_with(name, "board() {")[0], "bobs=bob-key-02", *calls, "echo all"]


def on_this_machine(lines):
    """Lines for root as a script for anyone: without users and units, and in folders of this one."""
    script = "\n".join(lines).replace("/var/lib/taskboard", "lib").replace("/var/backups/taskboard", "backups")
    return 'useradd() { :; }; runuser() { shift 3; "$@"; }; install() { mkdir -p lib backups; }\n' + script


def tables_of_a_file():
    """The tables of OPERATING.md are those of a new file, in their order."""
    name = "docs/OPERATING.md"
    run("taskboard init tables.db ann ann-key-1")
    with contextlib.closing(sqlite3.connect("file:tables.db?mode=ro", uri=True)) as file:
        made = [sql for (sql,) in file.execute("SELECT sql FROM sqlite_master WHERE type = 'table'")]
    block = next(block for _, block in blocks_of(name) if block.startswith("meta("))
    shown = [f"CREATE TABLE {' '.join(table.split())} STRICT" for table in re.split(r"\n(?=\w)", block)]
    if shown != made:
        sys.exit(f"{name}: the tables aren't those of a new file: {set(shown) ^ set(made)}")
    return len(made)


os.symlink(PROGRAM, "taskboard")
os.environ["PATH"] = f"{os.getcwd()}:{os.environ['PATH']}"
for folder in ("examples", "contrib", "page"):
    shutil.copytree(TOP / folder, folder)
first_run()
readme()
using()
for path in ["README.md", *(f"docs/{path.name}" for path in sorted((TOP / "docs").glob("*.md")))]:
    fenced(path)
if shutil.which("curl"):
    asked_by_curl()
else:
    print("what the documents ask by curl: skipped, since curl isn't there")
operating()
if sqlite3.sqlite_version_info >= (3, 37):
    print(f"{tables_of_a_file()} tables of a file are as OPERATING.md says")
else:
    print("the tables of a file: skipped, since this SQLite doesn't know such tables")
print(f"{members_of_a_task()} members of a task are taken as HTTP.md says")
print(f"{answers_of_examples()} answers of examples are as their scripts have them")
print(f"{len(ran)} commands of the documents print what stands behind them")
