"""What `taskboard import .. --all` does: importing.py PROGRAM, in a folder of its own."""
import json
import os
import pty
import subprocess
import sys
import uuid

program = sys.argv[1]
failed = False
# The file that is imported into, whose one board takes 10,000 tasks.
file = "b.db"


def fail(text):
    global failed
    failed = True
    print(text)


def identifier(number):
    return f"00000000-0000-4000-8000-{number:012d}"


def run(*words, text="", **more):
    return subprocess.run([program, *words], input=text.encode(), stdout=subprocess.PIPE, timeout=120, **{"stderr": subprocess.PIPE, **more})


def bring(number, board, kind, text, options=("--all",), **more):
    return run("import", file, "ann", "ann-key-1", identifier(number), str(board), kind, *options, text=text, **more)


def printed(*words):
    ran = run(*words, file, "ann", "ann-key-1", "1")
    return ran.stdout.decode()


def replies(ran):
    return [json.loads(line) for line in ran.stdout.decode().split("\n")[:-1]]


def expect(name, wanted, found):
    if wanted != found:
        fail(f"{name}: wanted {str(wanted)[:200]}, but got {str(found)[:200]}")


def expect_counts(name, ran, counts):
    """Each part's number of new and of known tasks."""
    if ran.returncode != 0 or ran.stderr:
        fail(f"{name}: status {ran.returncode}, {ran.stderr!r}")
    expect(name, counts, [(reply.get("new"), reply.get("known")) for reply in replies(ran)])


def expect_fault(name, ran, count, *texts):
    """A fault behind the replies of so many parts, with these texts on its second line."""
    expect(name, (1, count), (ran.returncode, len(replies(ran))))
    first, _, second = ran.stderr.decode().partition("\n")
    expect(f"{name}, its name", "taskboard: BadBody", first)
    for text in texts:
        if text not in second:
            fail(f"{name}: {second!r} lacks {text!r}")


def task(number, **more):
    return json.dumps({"description": f"Task {number}", "uuid": str(uuid.UUID(int=(number << 80) | (4 << 76) | (8 << 60))), **more})


def export(tasks):
    """As Taskwarrior prints it: a list, a task on each line."""
    return "[\n" + ",\n".join(tasks) + "\n]\n"


def look_at_export():
    """2,500 tasks: three parts, which say the same when they come again, and know each task under another identifier."""
    tasks = [task(number) for number in range(2500)]
    text = export(tasks)
    expect_fault("2,500 tasks in one call", bring(1, 1, "json", text, options=()), 0, "--all")
    first = bring(1, 1, "json", text)
    expect_counts("2,500 tasks", first, [(1000, 0), (1000, 0), (500, 0)])
    before = printed("export")
    expect("what is on the board", [json.loads(told)["uuid"] for told in tasks], [told["uuid"] for told in json.loads(before)])
    again = bring(1, 1, "json", text)
    expect("the same again", first.stdout, again.stdout)
    expect_counts("the same under another identifier", bring(2, 1, "json", text), [(0, 1000), (0, 1000), (0, 500)])
    expect("the board after that", before, printed("export"))
    # (a part is the call of its lines, under the identifier of version 5 of its number)
    part = ",\n".join(tasks[1000:2000]) + ",\n"
    own = str(uuid.uuid5(uuid.UUID(identifier(1)), "2"))
    alone = run("import", "b.db", "ann", "ann-key-1", own, "1", "json", text=part)
    expect("the second part by itself", replies(first)[1:2], replies(alone))
    expect("its own identifier", 1, bring(1, 1, "json", export(tasks[:999] + [task(9999)] + tasks[1000:])).returncode)


def look_at_bad_tasks():
    """A task in a wrong form: the parts before it stand, and the mended text is taken."""
    good = [task(number) for number in range(5000, 7200)]
    bad = good[:1006] + [task(6006, due="soon")] + good[1007:]
    ran = bring(3, 1, "json", export(bad))
    expect_fault("a bad task", ran, 1, "Task 7 of part 2", '"due"')
    expect_counts("the mended text", bring(3, 1, "json", export(good)), [(1000, 0), (1000, 0), (200, 0)])
    expect_fault("no task", bring(4, 1, "json", export([*good[:1000], "5"])), 1, "Task 1 of part 2", "no JSON object")
    expect_fault("a bad task of one call", bring(5, 1, "json", export([*good[:2], task(1, status="lost")]), options=()), 0, "Task 3 of the text", '"status"')
    expect_fault("a task without a uuid", bring(5, 1, "json", '{"description":"a"}', options=()), 0, "Task 1 of the text", '"uuid"')
    expect_fault("no JSON", bring(5, 1, "json", "[{", options=()), 0, "json is what")
    refused = bring(6, 9, "json", export(good))
    expect("a board that isn't there", (1, b'{"name":"NoBoard","refused":3}\n'), (refused.returncode, refused.stdout))


def look_at_lines():
    """Lines of todo.txt above 1 MiB, cut where 1,000 lines are full and where 1 MiB is."""
    for name, count, length, counts in (("short lines", 2200, 600, [1000, 1000, 200]), ("long lines", 900, 1500, [699, 201])):
        text = "".join(f"{name} {number} ".ljust(length - 1, "x") + "\n" for number in range(count))
        assert len(text) > 1 << 20
        number = 7 + len(name)
        expect_fault(f"{name} in one call", bring(number, 1, "todo", text, options=()), 0, "--all")
        expect_counts(name, bring(number, 1, "todo", text), [(new, 0) for new in counts])
        expect_counts(f"{name} again", bring(number, 1, "todo", text), [(new, 0) for new in counts])
    expect_fault("a line above 1 MiB", bring(8, 1, "todo", "a\n" + "b" * (1 << 20) + "\n"), 0, "A line or a task is longer")
    expect_counts("a few lines", bring(9, 1, "todo", "Buy milk\nBuy bread\n"), [(2, 0)])
    expect_counts("no text", bring(10, 1, "todo", ""), [(0, 0)])


def layouts(tasks):
    """A list in the layouts that programs write it in; how long a line is, and where the brackets stand, means nothing."""
    yield "a bracket after the last task", "[\n" + ",\n".join(tasks) + "]\n"
    yield "carriage returns", "[\r\n" + ",\r\n".join(tasks) + "\r\n]\r\n"
    yield "seven tasks on a line", "[" + ",\n".join(", ".join(tasks[at : at + 7]) for at in range(0, len(tasks), 7)) + "]"
    yield "one line", "[" + ",".join(tasks) + "]"
    yield "as jq prints it", json.dumps([json.loads(told) for told in tasks], indent=2) + "\n"
    yield "blank lines", " \t[\n\n" + "\n,\n".join(tasks) + "\n\n] \n"


def look_at_layouts():
    """The same tasks come in whatever layout the list has, each once and in their order."""
    tasks = [task(number, urgency=number / 7, size=[1.25, "]", "{\\"], note="a\t], [\"{") for number in range(30000, 32300)]
    count = len(json.loads(printed("export")))
    known = None
    for number, (name, text) in enumerate(layouts(tasks), 20):
        ran = bring(number, 1, "json", text)
        expect_counts(name, ran, known or [(1000, 0), (1000, 0), (300, 0)])
        known = [(0, 1000), (0, 1000), (0, 300)]
        expect_counts(f"{name} again", bring(number, 1, "json", text), [(reply["new"], reply["known"]) for reply in replies(ran)])
    brought = json.loads(printed("export"))[count:]
    expect("the tasks of each layout", [json.loads(told)["uuid"] for told in tasks], [told["uuid"] for told in brought])
    expect("their attributes", {"a\t], [\"{"}, {told["note"] for told in brought})
    few = [task(number) for number in range(33000, 33300)]
    expect_counts("a few tasks on many lines", bring(30, 1, "json", json.dumps([json.loads(told) for told in few], indent=1)), [(300, 0)])
    more = [task(number) for number in range(34000, 35200)]
    expect_counts("many tasks on one line", bring(31, 1, "json", "[" + ",".join(more) + "]"), [(1000, 0), (200, 0)])
    long = [task(number, note="x" * 1500) for number in range(36000, 36900)]
    expect_counts("a long line", bring(32, 1, "json", "[" + ",".join(long) + "]"), [(450, 0), (450, 0)])
    expect_fault("a task above 1 MiB", bring(33, 1, "json", "[" + ",".join([*few, task(37000, note="x" * (1 << 20))]) + "]"), 0, "longer")
    expect_fault("no list", bring(34, 1, "json", "[" + ",".join(more)), 0, "json")
    bad = more[:1006] + [task(34006, due="soon")] + more[1007:]
    expect_fault("a bad task of a line", bring(35, 1, "json", "[" + ",".join(bad) + "]"), 1, "Task 7 of part 2", '"due"')


def look_at_terminal():
    """Where standard error is a terminal it tells which part is begun."""
    text = export([task(number) for number in range(2500)])
    shown, told = pty.openpty()
    ran = bring(11, 1, "json", text, stderr=told)
    os.close(told)
    seen = os.read(shown, 4096).decode().replace("\r\n", "\n")
    os.close(shown)
    expect("on a terminal", (0, "".join(f"taskboard: part {part} of 3\n" for part in (1, 2, 3))), (ran.returncode, seen))


def look_at_words():
    for words in (["--all", "--all"], ["--all=1"], ["--every"]):
        expect(f"{words}", 2, bring(12, 1, "json", "", options=words).returncode)
    first = run("import", "--all", file, "ann", "ann-key-1", identifier(13), "1", "todo", text="Buy tea\n")
    expect_counts("--all in front", first, [(1, 0)])


def look_in_file(tasks, *looks):
    """Looks in a new file, in which so many tasks are at the end."""
    expect("init", 0, run("init", file, "ann", "ann-key-1").returncode)
    for look in looks:
        look()
    expect("check", f"boards 1 tasks {tasks} faults 0\n", run("check", file).stdout.decode())


look_in_file(7803, look_at_export, look_at_bad_tasks, look_at_lines, look_at_terminal, look_at_words)
file = "layouts.db"
look_in_file(4700, look_at_layouts)
if failed:
    sys.exit(1)
print("long texts came in by parts, each once")
