#!/usr/bin/env bash
# Makes each run of examples/runs.txt and compares what it prints, and its status, with what stands there. The status is 0 where
# all agree and 1 where one differs. A program given as the first word is run in place of the repository's own.
set -u

top=$(readlink -f "$(dirname "${BASH_SOURCE[0]}")/..")
program=$(readlink -f "${1:-$top/enhsp}")
cd "$top/examples" || exit 1

runs=0
agree=0
while read -r status output words; do
    case $status in '' | '#'*) continue ;; esac
    runs=$((runs + 1))
    # (the words have no spaces of their own)
    # shellcheck disable=SC2086
    if "$program" $words | cmp -s - "$output" && [ "${PIPESTATUS[0]}" -eq "$status" ]; then
        agree=$((agree + 1))
    else
        echo "differs: $words" >&2
    fi
done <runs.txt
echo "$agree of $runs runs agree"
[ "$agree" -eq "$runs" ]
