#!/bin/sh
# Sends 2,000 messages that were made from good ones by cutting, doubling, swapping and changing bytes: answers of the tables or a closed
# connection, a server that runs on, and no board that is another but by a call that was accepted. It needs python3;
# `sh tests/hostile/mutations.sh COUNT SEED` sends others.
set -eu

count=${1:-2000}
seed=${2:-1}
. "$(dirname "$0")/../lib/prepare.sh"

python3 "$top/tests/hostile/mutations.py" "$program" "$port" "$count" "$seed"
