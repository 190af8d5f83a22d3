#!/usr/bin/env bash
# What the script papaya-run and those of examples/ say themselves: help, the lines of a build, and hints. A stand-in for
# rt prints what rt does, so nothing is built.
set -euo pipefail

top="$(cd "$(dirname "${BASH_SOURCE[0]}")/.." && pwd)"
folder="$(mktemp -d)"
trap 'rm -rf "$folder"' EXIT
source "$top/tests/same.sh"

# A repository of three crates, one that none needs and an example. Its programs print their arguments, or say that a line
# or the input is bad.
made="$folder/top"
mkdir -p "$made"/crates/{papaya_{low,mid,run,other},count_words}/src "$made"/{tools,tests,examples} "$folder/bin"
cp "$top/papaya-run" "$top/HANDLES" "$made"
cp "$top"/tools/{need-rt,program,programs.sh,example.sh,prove} "$made/tools"
cp "$top/examples/count-words" "$made/examples"
echo 'import os; os.execvp("rt", ["rt", "ci"])' >"$made/tests/proofs.py"
cat >"$made/crates.txt" <<'END'
# crates
papaya_low:
papaya_mid: papaya_low
papaya_run: papaya_mid
papaya_other:
count_words: papaya_low
END
touch "$made"/crates/papaya_{low,mid,other}/src/lib.rt "$made"/crates/{papaya_run,count_words}/src/main.rt

cat >"$folder/bin/rt" <<'END'
#!/usr/bin/env bash
if [[ "$1" == try ]]; then
    if [[ -n "${ENDLESS-}" ]]; then
        echo 'no-answer: the program did not end within the time limit' >&2
        exit 6
    fi
    echo "tried ${*:3}"
    [[ -z "${SAYS-}" ]] || echo "$SAYS" >&2
    printf 'interpreter: no threads\nchecked: ended status=0\nraces: not looked for\nrun=ended status=0 proved=no\n' >&2
    exit "${STATUS-0}"
fi
program() {
    cat >"$1" <<'PROGRAM'
#!/usr/bin/env bash
echo "ran $*"
[[ -z "${SAYS-}" ]] || echo "$SAYS" >&2
exit "${STATUS-0}"
PROGRAM
    chmod +x "$1"
}
if [[ "$1" == run ]]; then
    echo over >>"$BEGUN"
    mkdir -p out
    program out/papaya_run
    exit
fi
for name in $(cut -d: -f1 crates.txt); do
    mkdir -p "crates/$name/out"
    [[ -z "${SLOW-}" ]] || sleep 30
    if [[ "${BROKEN-}" == "$name" ]]; then
        echo "src/lib.rt:1:1: error: not proved"
        exit 1
    fi
    echo "rt: $name ${SAID-proved}"
done
for name in papaya_run count_words; do
    [[ ! -d "crates/$name" ]] || program "crates/$name/out/$name"
done
END
chmod +x "$folder/bin/rt"
export PATH="$folder/bin:$PATH" BEGUN="$folder/begun"

# Runs a script; its standard output and standard error stay in files. Its standard input is none, or the file `lines`.
run_script() {
    local status=0
    "$@" >"$folder/output" 2>"$folder/errors" || status=$?
    echo "$status"
}
run() { run_script "$made/papaya-run" "$@" </dev/null; }
run_lines() { run_script "$made/papaya-run" "$@" <"$folder/lines"; }
count_words() { run_script "$made/examples/count-words" "$@" </dev/null; }

# Help is answered with no build, and begins with the form of the arguments.
for flag in --help -h '--unproved --help'; do
    # (each word is an argument)
    # shellcheck disable=SC2086
    same "$flag ends well" 0 "$(run $flag)"
    same "$flag prints the form" 'papaya-run [--unproved] <seq|shared|core> <inc:N|block> <id|zero>' \
        "$(head -1 "$folder/output")"
    silent "$flag says nothing else" cat "$folder/errors"
done
same 'help builds nothing' 'none' "$([[ -e "$made/crates/papaya_run/out" ]] && echo some || echo none)"

# Arguments are looked at before anything is built.
for arguments in '' 'core inc:64' 'core inc:64 id more' 'map block id' 'seq inc: id' 'seq block one' \
    'core inc:18446744073709551616 id' 'core inc:99999999999999999999 id'; do
    # (each word is an argument)
    # shellcheck disable=SC2086
    same "bad arguments have status 2: $arguments" 2 "$(run $arguments)"
    same "bad arguments are named: $arguments" 'papaya-run: bad arguments
papaya-run: for what it takes: papaya-run --help' "$(cat "$folder/errors")"
done
zero="papaya-run: refused 5 ZeroChunk
papaya-run: a chunk has at least one slot: give inc:1 or more, or block"
for arguments in 'seq inc:0 id' 'core inc:00 zero' '--unproved shared inc:0 id'; do
    # shellcheck disable=SC2086
    same "a chunk of none is refused as the program does: $arguments" 1 "$(run $arguments)"
    same "what to give is said: $arguments" "$zero" "$(cat "$folder/errors")"
done
same 'bad arguments build nothing' 'none' "$([[ -e "$made/crates/papaya_run/out" ]] && echo some || echo none)"

# Where rt is missing, that is said before anything else.
# (A folder of the path that has it is replaced by links to all else that is there.)
without=""
mkdir "$folder/without"
for it in ${PATH//:/ }; do
    if [[ -x "$it/rt" ]]; then
        links="$folder/without/${it//\//-}"
        mkdir -p "$links"
        ln -sf "$it"/* "$links"
        rm "$links/rt"
        it="$links"
    fi
    without+="$it:"
done
for script in 'papaya-run core block id' 'papaya-run --unproved core block id' 'examples/count-words' \
    'examples/count-words --unproved' 'tools/program papaya_run' "tools/prove $folder/proved papaya_mid"; do
    name="${script%% *}"
    # shellcheck disable=SC2086
    same "without rt nothing begins: $script" 127 "$(PATH="${without%:}" run_script "$made"/$script </dev/null)"
    same "and that is said: $script" "$(basename "$name"): rt, the command of the Rattle kit, is not on the path: add the kit's folder bin, and see that 'rt version' answers" \
        "$(cat "$folder/errors")"
done

# A run without the proof says so, prints what the program prints, and builds nothing.
same 'a run without the proof ends as the program' 0 "$(run --unproved core inc:18446744073709551615 id)"
same 'its output is the program'\''s' 'tried core inc:18446744073709551615 id' "$(cat "$folder/output")"
unproved='papaya-run: nothing is proved in this run: the program is compiled for it, in one to two minutes of a processor
papaya-run: it is built with checks, so it is slow; it is stopped after 60 seconds, or at 1 MiB of output'
same 'it says that nothing is proved' "$unproved" "$(cat "$folder/errors")"
same 'its status is the program'\''s' 2 "$(STATUS=2 SAYS='papaya-run: line 1: bad command' run --unproved core block id)"
same 'its errors are passed on' "$unproved
papaya-run: line 1: bad command" "$(cat "$folder/errors")"
same 'a run that is stopped has the status of rt' 6 "$(ENDLESS=yes run --unproved core block id)"
same 'what to do then is said' "$unproved
no-answer: the program did not end within the time limit
papaya-run: it was stopped: give it less input, or leave out --unproved, which proves and builds the fast program once" \
    "$(cat "$folder/errors")"
same 'it builds nothing' 'none' "$([[ -e "$made/crates/papaya_run/out" ]] && echo some || echo none)"

# A failed build shows what rt printed, and leaves no program.
export BROKEN=papaya_mid
same 'a failed build has status 1' 1 "$(run core block id)"
same 'a failed build shows the error' 'src/lib.rt:1:1: error: not proved' \
    "$(tail -1 "$folder/errors")"
unset BROKEN

# A build that is stopped leaves no program. On a loaded machine it takes long to begin.
: >"$folder/errors"
SLOW=yes "$made/papaya-run" core block id >"$folder/output" 2>"$folder/errors" &
script=$!
until grep -q 'proving papaya_low' "$folder/errors" || ! kill -0 "$script" 2>/dev/null; do
    sleep 0.1
done
kill -TERM "$script"
status=0
wait "$script" || status=$?
same 'a stopped build has status 130' 130 "$status"
same 'a stopped build says so' 'papaya-run: stopped; no program was built' \
    "$(tail -1 "$folder/errors")"
same 'a stopped build leaves no program' 'none' \
    "$([[ -e "$made/crates/papaya_run/out/papaya_run" ]] && echo some || echo none)"

# A first build says what it does, then each crate.
same 'a first build ends as the program' 0 "$(run core block id)"
same 'standard output is the program'\''s' 'ran core block id' "$(cat "$folder/output")"
same 'a first build names each crate, as it begins and as it ends' 'papaya-run: first run: proving and building 3 crates, half an hour to two, once
papaya-run: in a few minutes where you have a file of their proofs: tools/proofs use FILE
papaya-run: for a first look without the proof: papaya-run --unproved core block id
papaya-run: proving papaya_low
papaya-run: papaya_low proved in N s, 1 of 3
papaya-run: proving papaya_mid
papaya-run: papaya_mid proved in N s, 2 of 3
papaya-run: proving papaya_run
papaya-run: papaya_run proved in N s, 3 of 3' "$(sed 's/ in [0-9]* s,/ in N s,/' "$folder/errors")"

# A program that is fresh runs with no word.
same 'a fresh program runs' 0 "$(run seq inc:8 zero)"
same 'a fresh program gets its arguments' 'ran seq inc:8 zero' "$(cat "$folder/output")"
silent 'a fresh program runs with no word' cat "$folder/errors"

# What is wrong with a line of a file is said behind the program's own words.
wrong() {
    local said="papaya-run: line $3: bad command"
    printf "$2" >"$folder/lines"
    # shellcheck disable=SC2086
    same "a bad line has status 2: $2" 2 "$(STATUS=2 SAYS="$said" run_lines $1)"
    same "what is wrong is said: $1: $2" "$said
papaya-run: line $3 $4" "$(cat "$folder/errors")"
}
blanks='has blanks too many: one space parts two words, and none stands before the first or behind the last'
past='has a number past 64 bits: the greatest is 18446744073709551615'
wrong 'seq block id' 'i 1 2\r\ng 1\r\n' 1 'ends in CR LF: take the CR out of each line, as tr -d "\r" does'
wrong 'seq block id' '\ni 1  2\n' 2 "$blanks"
wrong 'shared block id' ' g 1' 1 "$blanks"
wrong 'core block id' 'begin 0 g 1 \n' 1 "$blanks"
wrong 'seq block id' 'g\t1\n' 1 "$blanks"
wrong 'seq block id' 'i 1 18446744073709551616\n' 1 "$past"
wrong 'core block id' 'begin 0 i 99999999999999999999 1\n' 1 "$past"
wrong 'seq block id' 'len\nbegin 0 g 1\n' 2 'is a line of core, and not of seq'
wrong 'shared block id' 'finish 0\n' 1 'is a line of core, and not of shared'
wrong 'shared block id' 'slots\n' 1 'is no line of shared'
wrong 'core block id' 'len\n' 1 'is no line of core'
wrong 'core block id' 'i 1 2\n' 1 "names no caller: on core it is 'begin 0 i 1 2', and then 'finish 0'"
wrong 'core block id' 'begin 64 walk\n' 1 'names no caller: they are 0 to 63'
wrong 'core block id' 'begin 1 walk\nbegin 1 g 2\n' 2 'begins a call of a caller that is in one: finish that first'
wrong 'core block id' 'step 1\n' 1 'steps a caller that is in no call: begin one first'
wrong 'seq block id' 'insert 1 2\n' 1 'has none of the forms that seq takes: papaya-run --help'
wrong 'core block id' '\0\377 *\n' 1 'has none of the forms that core takes: papaya-run --help'

# A file may have been read in part before. Of what comes by a pipe the script reads nothing.
printf 'begin\nlen\ng  1\n' >"$folder/lines"
same 'a line is counted from where the program began' 2 "$({ read -r && STATUS=2 SAYS='papaya-run: line 2: bad command' \
    run_script "$made/papaya-run" seq block id; } <"$folder/lines")"
same 'what is wrong with it is said' "papaya-run: line 2 $blanks" "$(tail -1 "$folder/errors")"
same 'a pipe is the program'\''s alone' 2 "$(printf 'g  1\n' |
    STATUS=2 SAYS='papaya-run: line 1: bad command' run_script "$made/papaya-run" seq block id)"
same 'and nothing is said of its lines' 'papaya-run: line 1: bad command' "$(cat "$folder/errors")"

# After a change it is built anew, and the script says so.
touch -d '+1 minute' "$made/crates/papaya_low/src/lib.rt"
same 'a stale program is built anew' 0 "$(run core block id)"
same 'the script says so' \
    'papaya-run: a source is newer than the program: proving anew what it reaches, and building' \
    "$(head -1 "$folder/errors")"
same 'nothing was built over kept work' none "$(cat "$BEGUN" 2>/dev/null || echo none)"

# Where a check has kept its work here, it is used.
mkdir "$made/crates/papaya_run/out/incremental"
touch -d '+2 minutes' "$made/crates/papaya_low/src/lib.rt"
same 'over kept work it is built too' 0 "$(run core block id)"
same 'by rt run' over "$(cat "$BEGUN")"
rm -r "$made/crates/papaya_run/out"

# Where the libraries are built here, by a stand-in for tools/proofs that lacks none, the program alone is.
: >"$BEGUN"
echo '[[ "$1 $2" == "lacks papaya_run" ]]' >"$made/tools/proofs"
chmod +x "$made/tools/proofs"
mkdir -p "$made/crates/papaya_low/out/rlib"
echo 'a file' >"$made/crates/papaya_low/out/rlib/brought"
same 'over libraries that are built here it is built' 0 "$(run core block id)"
same 'it says so, and which file is trusted' \
    'papaya-run: first run: proving and building the program over libraries that are built here, in a few minutes, once
papaya-run: libraries of a file are not proved here: you trust who made it' "$(cat "$folder/errors")"
same 'standard output is the program'\''s alone' 'ran core block id' "$(cat "$folder/output")"
same 'by rt run, once' over "$(cat "$BEGUN")"
same 'an example that lacks one proves all' 0 "$(count_words)"
same 'which it says' 'count-words: proving and building 2 crates; without the proof: examples/count-words --unproved' \
    "$(head -1 "$folder/errors")"
rm -r "$made"/crates/{papaya_run,papaya_low,count_words}/out "$made/tools/proofs"

# What an earlier run has passed is told apart, and of crates that are there only those that are needed are proved.
status=0
SAID='is kept: an earlier run' "$made/tools/prove" "$folder/proved" papaya_mid >"$folder/output" 2>"$folder/errors" ||
    status=$?
same 'crates are proved into a folder' 0 "$status"
same 'what was proved before is said' $'papaya_low proved before, 1 of 2\npapaya_mid proved before, 2 of 2' \
    "$(grep before "$folder/output")"
same 'just those are there' $'papaya_low\npapaya_mid' "$(ls "$folder/proved/crates")"
status=0
"$made/tools/prove" "$folder/proved" papaya_mid 2>/dev/null || status=$?
same 'a folder that is there is refused' 1 "$status"
silent 'nothing is left but the program' find "$made" -name proved

# The programs of examples/ do so too.
for flag in --help -h '--unproved --help'; do
    # shellcheck disable=SC2086
    same "an example answers $flag" 0 "$(count_words $flag)"
    same "an example says its form: $flag" 'examples/count-words [--unproved] < TEXT' "$(head -1 "$folder/output")"
done
same 'an example takes no other argument' 2 "$(count_words text)"
same 'an example is compiled without the proof' 0 "$(count_words --unproved)"
same 'nothing is built for it then' none "$([[ -e "$made/crates/count_words/out" ]] && echo some || echo none)"
touch "$made/crates/papaya_low/src/lib.rt"
same 'an example is built' 0 "$(count_words)"
same 'it says so, and which crates are proved' 'count-words: proving and building 2 crates; without the proof: examples/count-words --unproved
count-words: proving papaya_low
count-words: papaya_low proved in N s, 1 of 2
count-words: proving count_words
count-words: count_words proved in N s, 2 of 2' "$(sed 's/ in [0-9]* s,/ in N s,/' "$folder/errors")"
same 'a fresh example runs' 0 "$(count_words)"
silent 'and says nothing' cat "$folder/errors"
touch -d '+3 minutes' "$made/crates/papaya_low/src/lib.rt"
same 'a stale example is built again' 0 "$(count_words)"
same 'which it says' 'count-words: proving and building 2 crates; without the proof: examples/count-words --unproved' \
    "$(head -1 "$folder/errors")"
touch -d '+4 minutes' "$made/crates/count_words/out/count_words"
printf 'one \377 two' >"$folder/lines"
same 'a text that is no UTF-8 ends it as the program does' 1 "$(STATUS=1 SAYS='count-words: input failed' \
    run_script "$made/examples/count-words" <"$folder/lines")"
same 'and is named so' 'count-words: input failed
count-words: the text is no UTF-8, from its byte 5 on: iconv makes UTF-8 of other texts' "$(cat "$folder/errors")"

told papaya_run.sh
