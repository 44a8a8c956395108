"""What the page's files contain, in a line of its worker, and which modules it begins with: python3 page_content.py PAGE [--write]

A browser asks for the worker at each start, and compares it byte by byte. So that line tells it of a new version of any file, also of one that is
as long as before. The modules stand in index.html, so that a browser asks for all of them at once, and not for each once another names it. Without
--write both are checked."""
import hashlib
import pathlib
import re
import sys

LINE = re.compile(r"^// Content of the other files: [0-9a-f]{64}$", re.MULTILINE)


IMPORT = re.compile(r'^(?:import|export) .*"(\.[^"]*)";$', re.MULTILINE)
FIRST = "views/main.js"
PRELOAD = re.compile(r'(?:<link rel="modulepreload" href="[^"]*">\n)*(?=</head>)')


def modules_of(page):
    """The modules that the first one imports, itself too, and those that they import."""
    found, left = set(), [FIRST]
    while left:
        path = left.pop()
        if path in found:
            continue
        found.add(path)
        file = page / path
        left += [(file.parent / named).resolve().relative_to(page.resolve()).as_posix() for named in IMPORT.findall(file.read_text())]
    return sorted(found)


def index_of(page):
    """The text of index.html as it has to be."""
    links = "".join(f'<link rel="modulepreload" href="{path}">\n' for path in modules_of(page) if path != "start.js")
    return PRELOAD.sub(links, (page / "index.html").read_text(), count=1)


def files_of(page):
    """The page's files by their paths within it: those of the folder and of the folders in it."""
    return {file.relative_to(page).as_posix(): file for file in page.rglob("*") if file.is_file()}


def line_of(page):
    """The line for these files."""
    digest = hashlib.sha256()
    for path, file in sorted(files_of(page).items()):
        if path != "worker.js":
            digest.update(b"%s %d\n" % (path.encode(), file.stat().st_size) + file.read_bytes())
    return f"// Content of the other files: {digest.hexdigest()}"


def write(page):
    index = index_of(page)
    if index != (page / "index.html").read_text():
        (page / "index.html").write_text(index)
    worker = page / "worker.js"
    text, count = LINE.subn(line_of(page), worker.read_text())
    if count != 1:
        sys.exit(f"{worker} has {count} lines about the content of the other files, and not one")
    worker.write_text(text)


def check(page):
    lines = LINE.findall((page / "worker.js").read_text())
    if lines != [line_of(page)] or index_of(page) != (page / "index.html").read_text():
        sys.exit(f"the files of {page} have changed: run python3 tests/page/page_content.py {page} --write")


if __name__ == "__main__":
    [page, *words] = sys.argv[1:]
    (write if words == ["--write"] else check)(pathlib.Path(page))
