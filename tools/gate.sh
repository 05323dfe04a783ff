#!/usr/bin/env bash
# The gate, at the top of a clean checkout: proves every crate, tries the must-fail edits, runs the programs and the
# tests. It fails where `rt ci` does, and where an edit no longer fits the text.
set -uo pipefail
cd "$(dirname "$0")/.."
log=$(mktemp) || exit 1
trap 'rm -f "$log"' EXIT
rt ci 2>&1 | tee "$log"
status=${PIPESTATUS[0]}
if [ "$status" -eq 0 ] && grep -qE '^rt: ok.*, [1-9][0-9]* bad' "$log"; then
    echo "an edit no longer fits the text: see BAD EDIT above"
    echo "0 passed, 1 failed"
    status=1
fi
exit "$status"
