#!/usr/bin/env bash
# The merge gate: rt ci over the whole repository, as it lies here. What it says is kept in target/gate.log.
#
#     tests/gate.sh
#
# It fails where rt ci fails, and also where an edit under must-fail/ could not be tried: rt ci counts those as bad and passes all the same.
set -u
cd "$(dirname "$0")/.." || exit 1
log=target/gate.log
mkdir -p target
rt ci | tee "$log"
status=${PIPESTATUS[0]}
if [ "$status" -ne 0 ]; then
    exit "$status"
fi
if ! grep -q '^rt: ok' "$log"; then
    echo "gate: rt ci says nothing of how it went" >&2
    exit 1
fi
if grep -qE '^rt: ok.*, [1-9][0-9]* bad' "$log"; then
    echo "gate: edits under must-fail/ could not be tried, see BAD EDIT above" >&2
    exit 1
fi
