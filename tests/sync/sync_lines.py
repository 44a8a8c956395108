"""A file of todo.txt as people have them, and a board: sync_lines.py PROGRAM PORT, in a folder of its own."""
from bridging import Server, expect
from sync_days import PROGRAM, PORT, UUID, Side, lines_of

MARK = b"\xef\xbb\xbf"
LINES = """(A) Thank Mom for the meatballs @phone
(B) Schedule Goodwill pickup +GarageSale @phone
Post signs around the neighborhood +GarageSale
@GroceryStore Eskimo pies
(D) 2026-03-01 Renew the passport due:2026-12-24 t:2026-11-01 @errand
Water plants +Home rec:1w due:2026-12-01
Water plants +Home rec:1w due:2026-12-01
x 2026-03-03 2026-03-01 Review Tim's pull request +TodoTxtTouch @github pri:A
x Done without dates
X No lower-case x
xylophone lesson
(a) no priority
(A)no priority either
2026-02-30 is no date
Mail a@b.example about 1+1=2 and http://example.org/?due:2026-01-01
Due twice due:2026-05-01 due:2026-06-01
Two projects +One +Two @a @b @a
+Garden @home
due:2026-07-01
Ünïcode 東京 שלום 😀 \\ " ' # $HOME `x`
  indented and   spaced\tout  """.split("\n")
OWN = ("description", "project", "priority", "due")


def write(side, data):
    with open(side.path("todo.txt"), "wb") as file:
        file.write(data)


def read(side):
    with open(side.path("todo.txt"), "rb") as file:
        return file.read()


def by_text(side):
    return {task["description"]: task for task in side.editor.tasks().values()}


def expect_rest(side, name):
    """A further run has nothing to do."""
    before = read(side)
    expect(f"{name}: a further run", ("", before), (side.run(side.path("todo.txt")), read(side)))


def look_at_kinds(end, mark):
    """Lines of each kind, with either line end and with the mark of an editor, become tasks once, and keep end, mark and blank lines."""
    side, name = Side("todotxt-sync", "UTC"), f"{end!r} {mark!r}"
    write(side, mark + end.join(line.encode() for line in [LINES[0], "", " ", *LINES[1:], "", ""]))
    side.run(side.path("todo.txt"))
    tasks = by_text(side)
    expect(f"{name}: how many tasks", len(LINES), len(side.editor.tasks()))
    expect(f"{name}: the first line", ("H", ["phone"]), (tasks["Thank Mom for the meatballs"].get("priority"), tasks["Thank Mom for the meatballs"].get("tags")))
    expect(f"{name}: marks alone", ({"description": "+Garden @home", "project": "Garden"}, ["home"]), ({it: tasks["+Garden @home"][it] for it in OWN if it in tasks["+Garden @home"]}, tasks["+Garden @home"].get("tags")))
    expect(f"{name}: a due date alone", "20260701T000000Z", tasks["due:2026-07-01"]["due"])
    expect(f"{name}: done", ("completed", "20260303T000000Z", "20260301T000000Z"), tuple(tasks["Review Tim's pull request pri:A"][it] for it in ("status", "end", "entry")))
    expect(f"{name}: blanks", True, "indented and spaced out" in tasks)
    expect_rest(side, name)
    edit_each(side, name, end, mark)


def edit_each(side, name, end, mark):
    """Every open task is changed on the board, and one is added there."""
    before = read(side).count(end)
    ones = {uuid: task for uuid, task in side.editor.tasks().items() if task["status"] == "pending"}
    for uuid in ones:
        side.editor.change(uuid, "modify", {"tags": [*ones[uuid].get("tags", ()), "seen"]})
    side.editor.call("tasks", {"description": "New on the board"})
    side.run(side.path("todo.txt"))
    data = read(side)
    expect(f"{name}: mark and ends", (True, 0, before + 1), (data.startswith(mark + b"("), data.removeprefix(mark).count(MARK), data.count(end)))
    expect(f"{name}: other ends", 0, data.replace(b"\r\n", b"").count(b"\n") if end == b"\r\n" else data.count(b"\r"))
    expect(f"{name}: tags in the lines", len(ones), sum("@seen" in line.split(" ") for line in lines_of(side)))
    expect(f"{name}: words that the file alone means", (2, 1, 1), tuple(sum(word in line for line in lines_of(side)) for word in ("rec:1w", "t:2026-11-01", "(D) ")))
    expect_rest(side, f"{name}, edited")
    now = side.editor.tasks()
    expect(f"{name}: the tasks after that", {uuid: {it: task.get(it) for it in OWN} for uuid, task in ones.items()}, {uuid: {it: now[uuid].get(it) for it in OWN} for uuid in ones})


def look_at_the_last_line():
    """The last line goes from the file while another comes, with and without a line end there."""
    for end in ("", "\n"):
        side = Side("todotxt-sync", "UTC")
        write(side, f"First uuid:{UUID.format(1)}\nLast uuid:{UUID.format(2)}{end}".encode())
        side.run(side.path("todo.txt"))
        side.editor.change(UUID.format(2), "delete")
        side.editor.call("tasks", {"description": "New"})
        side.run(side.path("todo.txt"))
        expect("the lines", ["First", "New"], [" ".join(word for word in line.split(" ") if "uuid:" not in word and not word.startswith("20")) for line in lines_of(side)])
        expect_rest(side, "the last line")


def look_at_other_bytes():
    """A file that isn't UTF-8 is left as it is."""
    side = Side("todotxt-sync", "UTC")
    write(side, "Käse\n".encode("latin-1"))
    said = side.run(side.path("todo.txt"), status=1)
    expect(f"what is told: {said}", (True, "Käse\n".encode("latin-1")), ("isn't UTF-8 text. Nothing was changed" in said, read(side)))


if __name__ == "__main__":
    server = Server(PROGRAM, PORT)
    try:
        for end, mark in ((b"\n", b""), (b"\r\n", b""), (b"\n", MARK), (b"\r\n", MARK)):
            look_at_kinds(end, mark)
        look_at_the_last_line()
        look_at_other_bytes()
        print(f"{len(LINES)} kinds of lines with each line end and mark, and a last line that goes")
    finally:
        server.end()
