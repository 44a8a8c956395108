#!/bin/sh
# One client's adds beside 500 connections that send a byte each second and no key, minute by minute against the same client alone, over
# two servers in turn: sh beside.sh MINUTES, 2 where none are given. It fails where a task is lost, or where the median of the minutes is
# below LEAST times one alone. It needs python3, and as long as it's told; of a core it takes a quarter.
set -eu

minutes=${1:-2}
least=${LEAST:-0.9}
. "$(dirname "$0")/../lib/prepare.sh"

python3 "$top/tests/speed/beside.py" "$program" "$port" "$minutes" "$least"
