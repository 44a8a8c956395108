"""Looks up what the documents name: files, links, crates, contracts, examples, edits, numbers, the logic, and what they quote of the crates. Prints each that isn't there: python3 document_names.py"""
import collections
import pathlib
import re
import sys

TOP = pathlib.Path(__file__).resolve().parents[2]
# A crate's README says what the crate is for.
INTRODUCTIONS = sorted(path for path in (TOP / "crates").glob("*/README.md"))
DOCUMENTS = [TOP / "README.md", *sorted((TOP / "docs").glob("*.md")), *INTRODUCTIONS]
ENDINGS = r"\.(?:md|sh|py|rt|antt|txt|json|gz|case|steps|wire|script|answers|html|js|css)"
# An example goes by its name alone, whatever crate it is told of.
EXAMPLES = (".script", ".answers", ".wire", ".case", ".steps")
# What the program and the provers make, so that a clone needn't have it.
MADE = re.compile(r"((crates/\w+/)?out/.*|.*\.db(-wal)?)")
PLACEHOLDER = re.compile(r"NAME|FILE|MINUTES")
FOLDERS = ("", "crates", "docs", "tests", "tools", "contrib", "page")
faults = []


def lines_of(path):
    """The lines of a document with their numbers, but for those that are shown as they are."""
    return [(number, line) for number, line in enumerate(path.read_text().split("\n"), 1) if not line.startswith("    ")]


def tell(path, number, what):
    faults.append(f"{path.relative_to(TOP)}:{number}: {what}")


def crates_named(line):
    """The crates that a line names. (The folder `tests/` isn't the crate of that name, which is told of as `crates/tests`.)"""
    quotes = [re.sub(r"(?<![\w/])tests/", "", quoted) for quoted in re.findall(r"`([^`]+)`", line)]
    return [name for quoted in quotes for name in re.findall(r"\w+", quoted) if name in CRATES]


def every_file():
    """Each file of the repository by its last name, but for what is made."""
    files = collections.defaultdict(list)
    for path in TOP.rglob("*"):
        relative = path.relative_to(TOP)
        if not {"out", ".git", "__pycache__"} & set(relative.parts):
            files[path.name].append(str(relative))
    return files


def is_there(word, crates):
    """Whether a path is one from the top or a usual folder; else the end of one in a crate that the line names, or in any where it names none."""
    word = word.rstrip("/").removeprefix("./")
    pattern = PLACEHOLDER.sub("*", word)
    if any(next((TOP / folder).glob(pattern), None) for folder in FOLDERS):
        return True
    if "/" not in word and word.endswith(EXAMPLES):
        crates = ("tests",)
    inside = [f"crates/{crate}/" for crate in crates] or ["crates/"]
    if "*" in pattern:
        return True
    return any(path.endswith("/" + word) and path.startswith(tuple(inside)) for path in FILES[word.rpartition("/")[2]])


def check_files(path):
    """Each word between backticks that is a path has to be one; words that begin with a slash are routes."""
    crates = []
    for number, line in lines_of(path):
        # (a row stands for itself; a paragraph or a list goes on with the crates of the lines above; in a crate's README paths are of that crate)
        is_new = line.startswith("|") or not line.strip()
        crates = crates_named(line) if is_new else [*crates, *crates_named(line)]
        crates = [path.parent.name, *crates] if path in INTRODUCTIONS else crates
        for word in [word for quoted in re.findall(r"`([^`]+)`", line) for word in quoted.split()]:
            is_path = re.fullmatch(rf"[\w./-]*\w{ENDINGS}|(?:\w+/)*(?:specs|src|proofs|tests|tools|docs|dist|crates|examples|data|contrib)/?[\w/.-]*", word)
            if is_path and "/" + word[0] != "//" and not MADE.fullmatch(word) and not word.startswith(".") and not is_there(word, crates):
                tell(path, number, f"no file {word}")


def anchors(path):
    return {re.sub(r"[^\w -]", "", line.lstrip("# ").lower()).replace(" ", "-") for _, line in lines_of(path) if line.startswith("#")}


def check_links(path):
    for number, line in lines_of(path):
        for target in re.findall(r"\]\(([^)]+)\)", line):
            name, _, anchor = target.partition("#")
            to = path.parent / name if name else path
            if not target.startswith("http") and (not to.exists() or anchor and anchor not in anchors(to)):
                tell(path, number, f"no target {target}")


def declared(crate):
    """What a crate declares: functions, types, clauses, modules and definitions, and itself."""
    names = {crate}
    for path in (TOP / "crates" / crate / "src").rglob("*.rt"):
        names.add(path.stem)
        names |= set(re.findall(r"\b(?:fn|struct|enum|trait|type|const|mod|ensures|requires) +(\w+)", path.read_text()))
    for path in (TOP / "crates" / crate / "specs").rglob("*.antt"):
        names |= set(re.findall(r"\bpub (?:record )?(\w+) [:({]", path.read_text()))
    return names


def check_contracts():
    """Each name that carries a promise is declared in a crate that its row names, or that rows above it in its section name."""
    path = TOP / "docs/THEOREM.md"
    by_crate = {crate: declared(crate) for crate in CRATES}
    everywhere = set().union(*by_crate.values())
    above = []
    for number, line in lines_of(path):
        cells = line.split(" | ")
        above = [] if line.startswith("## ") else above
        if not line.startswith("|") or len(cells) != 2:
            continue
        crates = crates_named(cells[1])
        above += crates
        known = set().union(*(by_crate[crate] for crate in above)) if above else everywhere
        quotes = [re.sub(r"^impl \w+ for ", "", quoted) for quoted in re.findall(r"`([^`]+)`", cells[1]) if not re.search(r"[/.]", quoted)]
        for word in [word for quoted in quotes for word in re.split(r"::| ", quoted)]:
            if word not in known:
                tell(path, number, f"{' '.join(crates) or 'no crate'} declares no {word}")


def layers():
    """The line of each crate in the picture of the layers."""
    text = (TOP / "docs/ARCHITECTURE.md").read_text()
    picture = re.search(r"(?s)```\n( +program .*?)```", text)
    lines = picture[1].split("\n") if picture else []
    return {name: number for number, line in reversed(list(enumerate(lines))) for name in re.findall(r"\w+", line) if name in CRATES}


def check_crates():
    """The picture of the layers has each crate but those of tests, and each uses crates of its own line and of the lines below alone."""
    path, line_of = TOP / "docs/ARCHITECTURE.md", layers()
    for crate in sorted(CRATES):
        if crate not in BELOW or crate not in line_of and not crate.startswith("test"):
            tell(path, 0, f"{crate} lacks in the layers or in crates.txt")
        for other in BELOW.get(crate, ()):
            if line_of.get(other, len(line_of)) < line_of.get(crate, 0):
                tell(path, 0, f"{crate} uses {other}, which stands above it in the layers")


def source_lines(folder):
    """The lines of a folder's sources and definitions, without their margins."""
    paths = [path for ending in ("rt", "antt") for path in folder.rglob(f"*.{ending}") if "out" not in path.parts]
    return {line.strip() for path in paths for line in path.read_text().split("\n")}


def check_quotes():
    """Each line of code that THEOREM.md and the crates' READMEs show is one of the crates, or of that crate."""
    for path in (TOP / "docs/THEOREM.md", *INTRODUCTIONS):
        known = source_lines(path.parent if path in INTRODUCTIONS else TOP / "crates")
        for number, line in enumerate(path.read_text().split("\n"), 1):
            if line.startswith("    ") and line.strip() not in known:
                tell(path, number, f"no source has {line.strip()}")


def check_lengths():
    """The files of the trusted base are as long as its table says."""
    path = TOP / "docs/THEOREM.md"
    for number, line in lines_of(path):
        for name, told in re.findall(r"^\| `([\w/.]+)` \| (\d+) \| ", line):
            file = TOP / "crates" / name
            if file.exists() and len(file.read_text().splitlines()) != int(told):
                tell(path, number, f"{name} has {len(file.read_text().splitlines())} lines")


def check_edits():
    """Each wrong body in the table of TESTING.md is an edit of the crate that its row names."""
    path = TOP / "docs/TESTING.md"
    for number, line in lines_of(path):
        for name, crate in re.findall(r"^\| `(\w+)` \| `(\w+)` \| ", line):
            if not (TOP / "crates" / crate / "must-fail" / f"{name}.edit").exists():
                tell(path, number, f"{crate} has no edit {name}")


def check_examples():
    """Each case has a heading: a script in the list of headings, which has no others, and any other kind in its first line."""
    data, path = TOP / "crates/tests/data", TOP / "tests/data/examples.txt"
    headed = set(re.findall(r"(?m)^(\w+): \S", path.read_text()))
    for name in sorted(headed ^ {script.stem for script in data.glob("*.script")}):
        tell(path, 0, f"{name} is no script, or a script without a heading")
    for case in sorted(it for ending in ("wire", "steps", "case") for it in data.glob(f"*.{ending}")):
        if not case.read_text(errors="replace").startswith("# "):
            tell(case, 1, "no heading")


def check_tests():
    """Each test has a row, and those in the table of quick.sh are the ones that it runs."""
    path = TOP / "docs/TESTING.md"
    text = path.read_text()
    rows = set(re.findall(r"(?m)^\| `tests/([\w./]+)", text))
    helpers = {"all.sh", "quick.sh", "lib/prepare.sh", "packages.sh", "release.sh"}
    for name in sorted(str(test.relative_to(TOP / "tests")) for test in (TOP / "tests").rglob("*.sh")):
        if name not in rows | helpers:
            tell(path, 0, f"no row of tests/{name}")
    quick = text.partition("## Tests of `tests/quick.sh`")[2].partition("\n## ")[0]
    told = set(re.findall(r"(?m)^\| `tests/([\w./]+)", quick))
    run = set(re.findall(r"(?m)^\s*attempt ([\w./]+)", (TOP / "tests/quick.sh").read_text()))
    for name in sorted(told ^ run):
        tell(path, 0, f"tests/{name} is in the table of quick.sh or run by it, and not both")


def check_numbers():
    """How many edits, crates and tables there are, wherever the documents tell it."""
    numbers = {
        "must-fail edits": len(list(TOP.glob("crates/*/must-fail/*.edit"))),
        "crates in all": len(CRATES),
        "STRICT tables": len(re.findall(r"(?m)^    \w+\((?:\w+ INTEGER|\w+ BLOB)", (TOP / "docs/OPERATING.md").read_text())),
    }
    words = dict(zip("one two three four five six seven eight nine ten eleven twelve".split(), range(1, 13)))
    for path in DOCUMENTS:
        for number, line in lines_of(path):
            for told, what in re.findall(rf"(\w+) ({'|'.join(numbers)})", line):
                count = words.get(told.lower(), int(told) if told.isdigit() else None)
                if count not in (None, numbers[what]):
                    tell(path, number, f"{told} {what}: there are {numbers[what]}")


def check_logic():
    """The README, `--version` and the manifest of dist/ name one logic."""
    places = ("README.md", "crates/taskboard/src/main.rt", "dist/manifest")
    named = [re.findall(r"\blogic ([0-9a-f]{16})\b", (TOP / place).read_text()) for place in places]
    if len({tuple(it) for it in named}) != 1 or len(named[0]) != 1:
        faults.append("README.md, --version and dist/manifest name different logics")


def check_release():
    """`--version` and the manifest of dist/ name the newest release of the changes."""
    [number, date] = re.search(r"(?m)^## ([0-9.]+) \(([0-9-]+)\)$", (TOP / "CHANGELOG.md").read_text()).groups()
    if f"\ntaskboard {number} ({date})\n" not in (TOP / "crates/taskboard/src/main.rt").read_text():
        faults.append(f"--version doesn't name release {number} ({date})")
    if f"release {number}\ndate {date}\n" not in (TOP / "dist/manifest").read_text():
        faults.append(f"dist/manifest doesn't name release {number} ({date})")


def check_words():
    """Each word of a script stands where people look for it: in a table of USING.md, in the help of `send`, and behind its completion, which offers no others."""
    words = set(re.findall(r'(?m)^ +"([a-z-]+)" => Word::', (TOP / "crates/tb_calls/src/word.rt").read_text()))
    rows = re.findall(r"(?m)^\| (`.*?`) \| ", (TOP / "docs/USING.md").read_text())
    read = {word for row in rows for word in re.findall(r"`([a-z-]+)", row)}
    help_text = (TOP / "crates/tb_command_line/src/help.rt").read_text()
    helped = set(re.findall(r"[a-z-]+", help_text.partition("\n    WORD ")[2].partition("\n    TASK ")[0]))
    shell = re.search(r'(?s)_of_send\(\).*?\n +\*\) _taskboard_words "([^"]*)"', (TOP / "contrib/completion/taskboard.bash").read_text())
    offered = set(shell[1].split()) if shell else set()
    if not words:
        faults.append("crates/tb_calls/src/word.rt names no words")
    for place, told in (("docs/USING.md", read), ("the help of send", helped), ("contrib/completion/taskboard.bash", offered)):
        faults.extend(f"{place} lacks the word {word}" for word in sorted(words - told))
    faults.extend(f"contrib/completion/taskboard.bash offers {word}, which is no word" for word in sorted(offered - words))


def check_deeds():
    """Each deed of a history has its words on the page, and a name in the page's filter."""
    deeds = set(re.findall(r'(?m)^ +DeedKind::\w+ => "([a-z-]+)"', (TOP / "crates/tb_deeds/src/kind.rt").read_text()))
    page = (TOP / "page/views/deed.js").read_text()
    told = set(re.findall(r'(?m)^    "?([a-z-]+)"?: \(', page.partition("\nconst TOLD = {")[2].partition("\n};")[0]))
    filters = set(re.findall(r'"?([a-z-]+)"?: "', page.partition("\nexport const WORDS = {")[2].partition("};")[0]))
    if not deeds:
        faults.append("crates/tb_deeds/src/kind.rt names no deeds")
    for place, named in (("TOLD of page/views/deed.js", told), ("WORDS of page/views/deed.js", filters)):
        faults.extend(f"{place} lacks the deed {deed}" for deed in sorted(deeds - named))
        faults.extend(f"{place} has {deed}, which is no deed" for deed in sorted(named - deeds))


def check_my_words():
    """The words of `my`, each by one of its names: in the help, the man page and the completion. Words after `tb` in USING are words of `my`."""
    arms = re.findall(r'(?m)^ +((?:"[a-z]+" \| )*"[a-z]+") => MyWord::', (TOP / "crates/tb_my/src/word.rt").read_text())
    words = [re.findall(r"[a-z]+", arm) for arm in arms]
    known = {name for names in words for name in names}
    section = (TOP / "docs/USING.md").read_text().partition("\n## tb\n")[2].partition("\n## ")[0]
    help_text = (TOP / "crates/tb_command_line/src/help.rt").read_text().partition("\ntaskboard my ")[2].partition("\n    N, M ")[0]
    told = set(re.findall(r"[a-z]+", re.sub(r"(?m)  .*$", "", re.sub(r"(?m)^    ", "", help_text))))
    page = (TOP / "contrib/man/taskboard.1").read_text().partition("\n.B my")[2].partition("\n.TP\n")[0]
    shell = re.search(r'(?s)_of_my\(\).*?_taskboard_words "([^"]*)"', (TOP / "contrib/completion/taskboard.bash").read_text())
    offered = set(shell[1].split()) if shell else set()
    if not words:
        faults.append("crates/tb_my/src/word.rt names no words")
    for place, named in (("the help of my", told), ("contrib/man/taskboard.1", set(re.findall(r"[a-z]+", page))), ("contrib/completion/taskboard.bash", offered)):
        faults.extend(f"{place} lacks the word {names[0]} of my" for names in words if not named.intersection(names))
    faults.extend(f"contrib/completion/taskboard.bash offers {word}, which is no word of my" for word in sorted(offered - known - {"help"}))
    used = set(re.findall(r"(?m)(?:^    |`)tb ([a-z]+)", section))
    if not used:
        faults.append("docs/USING.md shows no word of my")
    faults.extend(f"docs/USING.md shows tb {word}, which is no word of my" for word in sorted(used - known - {"help"}))


def check_routes():
    """The table of routes has each route of the server, and no others."""
    source = "\n".join(path.read_text() for path in TOP.glob("crates/*/src/route.rt"))
    served = set(re.findall(r'"(/[\w{}/-]*)"', source))
    written, path = set(), TOP / "docs/HTTP.md"
    for first, more in re.findall(r"(?m)^\| `(?:POST|GET) ([^`]+)`((?:, `[\w-]+`)*) \|", path.read_text()):
        begin = first.rpartition("/")[0]
        routes = [first, *(f"{begin}/{last}" for last in re.findall(r"[\w-]+", more))]
        written |= {route.replace("/B", "/{b}").replace("/UUID", "/{uuid}").replace("/NAME", "/{name}").replace("/N", "/{n}") for route in routes}
    for route in sorted(served ^ written):
        tell(path, 0, f"{route} is no route, or a route without a row")


def check_faults():
    """Each name of a fault has a row among the messages on standard error, and each row of one name is that of a fault."""
    source = "\n".join(path.read_text() for path in TOP.glob("crates/*/src/fault.rt"))
    names = set(re.findall(r'\bFault::\w+ => "(\w+)"', source))
    path = TOP / "docs/OPERATING.md"
    rows = {name for row in re.findall(r"(?m)^\| (`[A-Z]\w+`[^|]*) \|", path.read_text()) for name in re.findall(r"`(\w+)`", row)}
    for name in sorted(names ^ rows):
        tell(path, 0, f"{name} is no fault, or a fault without a row")


FILES = every_file()
CRATES = {path.name for path in (TOP / "crates").iterdir() if (path / "src").is_dir()}
BELOW = {line.partition(":")[0]: line.partition(":")[2].split() for line in (TOP / "crates.txt").read_text().split("\n") if ":" in line}
for document in DOCUMENTS:
    check_files(document)
    check_links(document)
check_contracts()
check_crates()
check_quotes()
check_lengths()
check_edits()
check_examples()
check_tests()
check_numbers()
check_logic()
check_release()
check_words()
check_deeds()
check_my_words()
check_routes()
check_faults()
print("\n".join(faults) or f"what {len(DOCUMENTS)} documents name is there")
sys.exit(bool(faults))
