#!/usr/bin/env bash
# lines.sh STATEMENT: prints the lines of a statement that dsr_totals accepts, remarks or not, for sqlite.sh: the
# number of the line, its cells, and as many further empty cells as make ten, with TABs between.
# Exit status 1, and nothing printed, if dsr_totals refuses the statement or it has a zero byte, which a database cannot hold.
set -euo pipefail
export LC_ALL=C
[ $# -eq 1 ] || { sed -n '2,/^set/s/^# //p' "$0" >&2; exit 2; }
room=$(mktemp -d)
trap 'rm -rf "$room"' EXIT
# What is checked is a copy, and what is printed is the same copy.
cp -- "$1" "$room/statement"
if ! "${DSR_TOTALS:-dsr_totals}" --with-remarks "$room/statement" >"$room/totals" 2>"$room/errors"; then
    echo "lines.sh: $1 is refused: $(sed "s|$room/||" "$room/errors")" >&2
    exit 1
fi
tr -d '\0' <"$room/statement" | cmp -s - "$room/statement" || { echo "lines.sh: $1 has a zero byte" >&2; exit 1; }
awk -F'\t' '{ tail = ""; for (cell = NF; cell < 9; cell++) tail = tail "\t"; print NR "\t" $0 tail }' "$room/statement"
