"""The page's modules: which of them import which, and their types: python3 modules.py. Types need tsc, and are skipped where it isn't there.

A module imports from its own folder and from those below it: views use the store, that what is synchronized, and that the core."""
import pathlib
import re
import shutil
import subprocess
import sys

HERE = pathlib.Path(__file__).resolve().parent
PAGE = HERE.parents[1] / "page"
# The folders of which each may import from.
USES = {
    "core": (),
    "import": ("core",),
    "sync": ("core", "import"),
    "store": ("core", "import", "sync"),
    "ui": ("core",),
    "views": ("core", "import", "sync", "store", "ui"),
}
IMPORT = re.compile(r'^import .*"(\.[^"]*)";$', re.MULTILINE)
CHECKS = ("--allowJs", "--checkJs", "--noEmit", "--noUnusedLocals", "--target", "es2022", "--lib", "es2022,dom,dom.iterable", "--module", "es2022", "--moduleResolution", "node")
faults = []


def module_files():
    return sorted(file for folder in USES for file in (PAGE / folder).glob("*.js"))


def check_imports(file):
    """Each import of a module leads to a file of a folder that it may use."""
    folder = file.parent.name
    for named in IMPORT.findall(file.read_text()):
        target = (file.parent / named).resolve()
        if not target.is_file():
            faults.append(f"{file.relative_to(PAGE)} imports {named}, which isn't there")
        elif target.parent != PAGE and target.parent.name not in (folder, *USES[folder]):
            faults.append(f"{file.relative_to(PAGE)} imports {target.relative_to(PAGE)}: {folder}/ uses {', '.join(USES[folder]) or 'nothing else'}")


def check_types(files):
    """What tsc says of the types."""
    named = [str(file) for file in (HERE / "newer.d.ts", PAGE / "types.js", PAGE / "start.js", PAGE / "again.js", *files)]
    checked = subprocess.run(["tsc", *CHECKS, *named], cwd=PAGE, stdout=subprocess.PIPE, text=True)
    faults.extend(checked.stdout.splitlines())


files = module_files()
for file in files:
    check_imports(file)
is_typed = shutil.which("tsc") is not None
if is_typed:
    check_types(files)
if faults:
    sys.exit("\n".join(faults))
print(f"the page's modules: {len(files)}, of which each imports from below{', with their types' if is_typed else '; their types are skipped, since tsc is not there'}")
