#!/usr/bin/env bash
# The programs of examples/ on a text of some megabytes that is made here: what they print is what sort and
# uniq make of it, and the times stand beside each other. Where a folder is given, what runs is its count_words and
# unique_lines.
set -euo pipefail
top="$(cd "$(dirname "${BASH_SOURCE[0]}")/.." && pwd)"
room="$(mktemp -d)"
trap 'rm -rf "$room"' EXIT
source "$top/tests/same.sh"
export LC_ALL=C

# 600,000 words in lines of ten: few are common, and many are rare. Each third line comes again.
awk 'BEGIN {
    seed = 1
    for (line = 0; line < 60000; line++) {
        if (line % 3 == 2) { print said; continue }
        said = ""
        for (word = 0; word < 10; word++) {
            seed = (seed * 1103515245 + 12345) % 2147483648
            rank = int(exp(seed / 2147483648 * 10))
            said = said (word ? " " : "") "w" rank
        }
        print said
    }
}' >"$room/text"

# timed FILE COMMAND..: the command over the text, with its output in the file; prints the milliseconds.
timed() {
    local from="$(date +%s%N)"
    "${@:2}" <"$room/text" >"$1"
    echo "$((($(date +%s%N) - from) / 1000000))"
}

commonest() {
    tr -s '[:space:]' '\n' | sort | uniq -c | sort -k1,1nr -k2 | head -10 | sed 's/^ *//' || true
}

programs="${1-}"

# example NAME: runs a program on standard input.
example() {
    if [[ -n "$programs" ]]; then
        "$programs/${1//-/_}"
    else
        "$top/examples/$1"
    fi
}

for program in count-words unique-lines; do
    example "$program" </dev/null >"$room/none"
    silent "$program on no text" cat "$room/none"
done
here="$(timed "$room/here" example count-words)"
there="$(timed "$room/there" commonest)"
same 'the commonest words' "$(cat "$room/there")" "$(cat "$room/here")"
echo "count-words: $here ms, sort and uniq -c: $there ms, $(wc -c <"$room/text") bytes"
here="$(timed "$room/here" example unique-lines)"
there="$(timed "$room/there" sort -u)"
same 'the different lines' "$(cksum <"$room/there")" "$(cksum <"$room/here")"
echo "unique-lines: $here ms, sort -u: $there ms"

told examples.sh
