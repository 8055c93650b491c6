#!/bin/sh
# check.sh OUT: gives OUT/original the commands of differences.txt and compares
# its answers with those in the list.
set -eu

if [ $# -ne 1 ]; then
    echo "usage: check.sh OUT" >&2
    exit 2
fi
list=$(cd "$(dirname "$0")" && pwd)/differences.txt

grep -v -e '^#' -e '^= ' -e '^$' "$list" | "$1/original" --plain >"$1/answers.txt"
sed -n 's/^= //p' "$list" >"$1/expected.txt"
diff "$1/expected.txt" "$1/answers.txt"
echo "$(wc -l <"$1/answers.txt") answers, all as listed"
