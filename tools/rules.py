#!/usr/bin/env python3
"""Lists the rules of the boards, the program and the server: python3 tools/rules.py [--check] [WORD..], for instance `owner` or `NotAllowed`.

A rule is one comment line above the definition that decides it, in `crates/*/specs/*.antt`:

    -- Rule: a board keeps an owner. Refused as LastOwner. Tried by people_and_roles.

With it stand the definition, the functions whose contracts use it, directly or through other definitions, and the tests. With `--check` it
prints only what a rule names and isn't there, and ends with 1 if there is any. It reads the sources alone, and runs nothing."""
import collections
import pathlib
import re
import signal
import sys

TOP = pathlib.Path(__file__).resolve().parent.parent
LINE = re.compile(r"-- Rule: (?P<text>.+?)\.(?: Refused as (?P<refused>[\w, ]+)\.)? Tried by (?P<tried>[\w., ]+)\.$")
# At the margin, or in a module with parameters, where fields of records have margins too.
DEFINITION = re.compile(r"(?:(?:\w+ )*pub (?:record )?|\s+(?:\w+ pub|pub record) )([\w◌]+)(?=[\s:({])")
IMPORT = re.compile(r"use Rattle\.(\w+)\.specs\.(\w+)\.\{([^}]*)\}")
# How many functions are named with a rule.
MOST = 3
# Names of faults that no table of names in specs/ has.
OTHER_FAULTS = {"BadLine"}
NAMES = ("tb_calls/specs/Bodies.antt", "tb_http/specs/Fault.antt", "tb_program/specs/Fault.antt")

Rule = collections.namedtuple("Rule", "text refused tried place")
Place = collections.namedtuple("Place", "crate file name")


def imports(text):
    """What a source calls a definition, and the definition's place."""
    found = {}
    for crate, file, names in IMPORT.findall(text):
        for name in re.split(r",\s*", names.strip()):
            own, _, alias = name.partition(" as ")
            found[alias or own] = Place(crate, file, own)
    return found


def words(text):
    return set(re.findall(r"\w+", text))


def definitions(path):
    """The definitions of a file: each with the words of its text, and the rule above it."""
    crate, lines = path.parts[-3], path.read_text().split("\n")
    here, text, rules = None, collections.defaultdict(set), []
    waiting = []
    for line in lines:
        if line.lstrip().startswith("-- Rule:"):
            waiting.append(line.lstrip())
            continue
        begins = DEFINITION.match(line)
        if begins:
            here = Place(crate, path.stem, begins[1])
            rules += [(line_of_rule, here) for line_of_rule in waiting]
        if here and not line.startswith(("use ", "--")):
            text[here] |= words(line)
        if not line.lstrip().startswith("--"):
            rules += [(line_of_rule, None) for line_of_rule in waiting if not begins]
            waiting = []
    return text, rules


def heads(text):
    """The functions of a source, each with its head: its signature and its clauses."""
    name, head = None, []
    for line in text.split("\n"):
        begins = re.match(r"\s*(?:pub(?:\(\w+\))? )?fn (\w+)", line)
        if begins:
            name, head = begins[1], []
        if name:
            head.append(line)
            # A body begins on a line of its own behind clauses, and else behind the signature; a function of a trait has none.
            if line.strip() in ("{", "{}") or line.endswith((";", "{")) and "ensures" not in line and "requires" not in line or line.endswith("};"):
                yield name, "\n".join(head)
                name = None


def contracts(path):
    """The functions of a source and the types with an invariant, each with the words of its contract."""
    text = path.read_text()
    models = re.findall(r"(?s)\nimpl Model for (\w+)[^{]*\{\n(.*?)\n\}", text)
    return [(f"{path.parts[-3]}/src/{path.name} {name}", words(contract)) for name, contract in [*models, *heads(text)]]


def users_of_definitions():
    """For each definition those that stand on it, and the functions whose contracts name it."""
    above, functions, rules = collections.defaultdict(set), collections.defaultdict(list), []
    for path in sorted(TOP.glob("crates/*/specs/*.antt")):
        text, own_rules = definitions(path)
        rules += own_rules
        known = {**imports(path.read_text()), **{place.name: place for place in text}}
        for place, used in text.items():
            for word in used & known.keys():
                if known[word] != place:
                    above[known[word]].add(place)
    for path in sorted(TOP.glob("crates/*/src/**/*.rt")):
        known = imports(path.read_text())
        for function, used in contracts(path):
            for word in sorted(used & known.keys()):
                functions[known[word]].append(function)
    return above, functions, rules


def nearest(place, above, functions):
    """The functions whose contracts use a definition through as few others as can be, those of its own crate first."""
    seen, level = {place}, [place]
    while level:
        found = [function for it in level for function in functions[it]]
        if found:
            unique = list(dict.fromkeys(found))
            return sorted(unique, key=lambda function: not function.startswith(f"{place.crate}/"))[:MOST]
        level = sorted({up for it in level for up in above[it]} - seen)
        seen |= set(level)
    return []


def parts(text):
    return re.split(r", | and | or ", text) if text else []


def read_rules(lines):
    """The rules, and what is wrong with lines that are none."""
    rules, faults = [], []
    for line, place in lines:
        read = LINE.match(line)
        if read and place:
            rules.append(Rule(read["text"], parts(read["refused"]), parts(read["tried"]), place))
        else:
            faults.append(f"{line}: " + ("no definition stands below it" if read else "it isn't in the form of a rule"))
    return rules, faults


def tests():
    """What a rule may be tried by: a case of the test crates, a script or a function of tests/."""
    cases = {path.stem for path in TOP.glob("crates/tests/data/*") if path.suffix in (".script", ".wire", ".steps", ".case")}
    functions = {name for path in TOP.glob("tests/**/*.py") for name in re.findall(r"(?m)^def (\w+)", path.read_text())}
    return cases | functions | {path.name for ending in ("sh", "py") for path in TOP.glob(f"tests/**/*.{ending}")}


def faults_of(rules):
    """What the rules name, and isn't there."""
    known = tests() | {"no test"}
    names = OTHER_FAULTS.union(*(re.findall(r'codes "(\w+)"', (TOP / "crates" / path).read_text()) for path in NAMES))
    for rule in rules:
        yield from (f"{rule.place.name}: no test {name}" for name in rule.tried if name not in known)
        yield from (f"{rule.place.name}: no refusal {name}" for name in rule.refused if name not in names)


def main():
    asked = [word for word in sys.argv[1:] if word != "--check"]
    above, functions, lines = users_of_definitions()
    rules, faults = read_rules(lines)
    faults += faults_of(rules)
    for rule in rules if "--check" not in sys.argv else []:
        crate, file, name = rule.place
        used_by = ", ".join(nearest(rule.place, above, functions)) or "no contract"
        refused = f" ({', '.join(rule.refused)})" if rule.refused else ""
        shown = f"{rule.text}{refused}\n    {crate}/specs/{file}.antt {name}\n    {used_by}\n    {', '.join(rule.tried)}"
        if all(word in shown for word in asked):
            print(shown)
    print("\n".join(faults) or f"{len(rules)} rules name what is there")
    sys.exit(bool(faults))


if __name__ == "__main__":
    # (whoever reads the output may have enough of it, as `head` does)
    signal.signal(signal.SIGPIPE, signal.SIG_DFL)
    main()
