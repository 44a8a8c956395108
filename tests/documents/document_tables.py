"""Holds those tables of the documents whose first cells are the program's: words and orders by its help, refusals and members by its sources.

python3 document_tables.py PROGRAM           prints where a document differs
python3 document_tables.py PROGRAM --write   writes them anew; the cells that a person wrote stay, and are empty in a new row"""
import pathlib
import re
import subprocess
import sys

TOP = pathlib.Path(__file__).resolve().parents[2]
SOURCES = [path.read_text() for path in sorted(TOP.glob("crates/*/src/*.rt"))]


def help_of(*words):
    return subprocess.run([PROGRAM, *words, "--help"], capture_output=True, text=True, check=True).stdout


def function(name, holder=""):
    """The text of a function, up to the next one; behind the text `holder`, where one is given."""
    for text in SOURCES:
        start = text.find(f"fn {name}(", text.find(holder)) if holder in text else -1
        if start >= 0:
            return re.split(r"\n(?:    )?(?:pub(?:\(crate\))? )?fn ", text[start:])[0]
    return sys.exit(f"no source has a function {name}")


def arms(text, kind):
    """What a match gives for each variant of a type."""
    found, variants = {}, []
    for variant, value in re.findall(rf"\b{kind}::(\w+)|=>\s*([^,\n]+)", text):
        if variant:
            variants.append(variant)
        else:
            found.update({name: value.strip('" ') for name in variants})
            variants = []
    return found


def cell(form):
    return "`" + form.replace("|", "\\|") + "`"


def words():
    """The words of `send` with their arguments, one after the other; those before one with `each` have its arguments too."""
    listed = re.search(r"(?s)\n    WORD +(.*?)\n    \S", help_of("send"))[1]
    forms, bare = [], []
    # (what follows a semicolon says more of the last word)
    for form in re.sub(r"\s+", " ", re.sub(r"\(.*?\)|;.*", "", listed, flags=re.DOTALL)).strip().split(", "):
        first, _, arguments = form.strip().partition(" ")
        if first == "each":
            forms += [f"{word} {arguments}" for word in bare]
        elif arguments:
            forms += [*bare, form.strip()]
        bare = [] if arguments else [*bare, first]
    return [[cell(form)] for form in forms + bare]


def orders():
    """The orders with their words; a line that is set in further goes on with the one above."""
    told = re.sub(r"\n {8,}", " ", help_of())
    lines = [line.strip() for line in told.split("\n") if line.startswith("    taskboard ")]
    return [[cell(line)] for line in lines]


def refusals():
    numbers, statuses = (arms(function(name, "impl Refusal {"), "Refusal") for name in ("number", "status"))
    names = arms(function("name_of_refusal"), "Refusal")
    rows = {int(number): [f"{number} {names[variant]}", statuses[variant]] for variant, number in numbers.items()}
    return [rows[number] for number in sorted(rows)]


def fields_of_refusals():
    return [[f"`{name}`"] for name in arms(function("name_of_field"), "Field").values()]


def unread():
    """What is answered to a message that can't be read, and where the keeper failed."""
    names, statuses, ends = (arms(function(name, "impl WireFault {"), "WireFault") for name in ("name", "status", "closes"))
    rows = [[names[variant], status[5:-1], ends[variant] == "true"] for variant, status in statuses.items() if status.startswith("Some")]
    store = arms(function("failed_answer"), "KeepFault")["Store"]
    order = list(names.values())
    return sorted(rows, key=lambda row: order.index(row[0])) + [["Store", store, True]]


def unread_rows():
    return [[name, status, None, "is closed" if closes else "stays open"] for name, status, closes in unread()]


def members():
    return [[f"`{name}`"] for name in re.findall(r'"(\w+)"', function("is_attribute"))] + [["any other"]]


# The document and the header of each table, and its rows: their first cells, or None for one that a person writes.
TABLES = [
    ("docs/USING.md", "| Word and arguments | Does |", words),
    ("docs/USING.md", "| Order | Does |", orders),
    ("docs/HTTP.md", "| Number and name | Status | When |", refusals),
    ("docs/HTTP.md", "| `field` | The task |", fields_of_refusals),
    ("docs/HTTP.md", "| Name | Status | When | The connection |", unread_rows),
    ("docs/HTTP.md", "| Member | Type | Example | `modify` |", members),
]


def cells(line):
    return [cell.strip() for cell in re.split(r"(?<!\\)\|", line.strip().strip("|"))]


def rewritten(text, header, rows):
    """The document with this table anew."""
    before, _, rest = text.partition(header + "\n")
    old, end = rest.split("\n\n", 1)
    rule, *lines = old.split("\n")
    written = {cells(line)[0]: cells(line) for line in lines}
    width = len(cells(header))
    anew = []
    for row in rows:
        kept = written.get(row[0], [""] * width)
        filled = [*row, *[None] * (width - len(row))]
        anew.append("| " + " | ".join(kept[at] if it is None else it for at, it in enumerate(filled)) + " |")
    return before + "\n".join([header, rule, *anew]) + "\n\n" + end


def faults_of(name, header, rows):
    """Where the table of a document isn't the program's, or says nothing of a row; it is written anew where that is asked."""
    path = TOP / name
    text = path.read_text()
    if header not in text:
        return [f"{name} has no table {header}"]
    anew = rewritten(text, header, rows)
    if "--write" in sys.argv:
        path.write_text(anew)
        text = anew
    lines, wanted = (it.partition(header + "\n")[2].partition("\n\n")[0].split("\n") for it in (text, anew))
    wrong = [f"{name}: the program says {row}" for row in wanted if row not in lines] + [f"{name}: the program doesn't say {row}" for row in lines if row not in wanted]
    if not wrong and lines != wanted:
        wrong = [f"{name}: the rows of {header} are in another order"]
    return wrong + [f"{name}: nothing is said of {row}" for row in wanted if not all(cells(row))]


def main():
    faults = [fault for name, header, rows in TABLES for fault in faults_of(name, header, rows())]
    print("\n".join(faults) or f"{len(TABLES)} tables of the documents are the program's")
    sys.exit(bool(faults))


if __name__ == "__main__":
    PROGRAM = sys.argv[1]
    main()
