#!/bin/sh
# Holds the documents to what is there: the files, links, crates, contracts, examples and numbers that they name, the tables that are the
# program's, and what their commands print. It needs python3, curl for most commands and sqlite3 for one, and takes seconds once the program is there.
set -eu

. "$(dirname "$0")/lib/prepare.sh"

python3 "$top/tests/documents/document_names.py"
python3 "$top/tests/documents/document_tables.py" "$program"
python3 "$top/tests/documents/document_runs.py" "$program" "$port"
# What the rules name beside their definitions: tests and refusals.
python3 "$top/tools/rules.py" --check
