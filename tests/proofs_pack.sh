#!/usr/bin/env bash
# tools/proofs packs the libraries of a checkout and takes them into another one, with another kit folder and another home,
# and refuses what does not belong there. The libraries are made up, and named as those that `rt ci` leaves. Nothing is proved.
set -euo pipefail
top="$(cd "$(dirname "${BASH_SOURCE[0]}")/.." && pwd)"
room="$(mktemp -d)"
trap 'rm -rf "$room"' EXIT
source "$top/tests/same.sh"

# A repository of two libraries, a third that stands on them and is not asked for, and a program.
from="$room/from"
mkdir -p "$from"/crates/papaya{,_low,_more,_run}/src
printf 'papaya_low:\npapaya: papaya_low\npapaya_more: papaya\npapaya_run: papaya\n' >"$from/crates.txt"
for crate in papaya papaya_low papaya_more; do
    echo "// $crate" >"$from/crates/$crate/src/lib.rt"
done
echo '// a program' >"$from/crates/papaya_run/src/main.rt"
cp -a "$top/HANDLES" "$top/LICENSE" "$top/VERSION" "$top/tools" "$from"
git -C "$from" init -q
cp -a "$from" "$room/to"
to="$room/to"

# The kit of rt, in another folder, where it is another file.
kit="$(dirname "$(rt doc)")"
mkdir -p "$room/kit/bin" "$room/home"
cp "$kit"/bin/{rt,rtlib.py} "$room/kit/bin"
cp "$kit"/{KIT-ID,WHAT,START-HERE.md} "$room/kit"
ln -s "$kit/rlibs" "$kit/rattle" "$room/kit"

# A library of these bytes, as `rt ci` leaves it: its format names the builds below it. With a stamp, a check takes it.
library() {
    local folder="$1/crates/$2/out/rlib" below
    rm -rf "$folder"
    mkdir -p "$folder/$2.rlib/lang/src"
    cp "$1/crates/$2/src/lib.rt" "$folder/$2.rlib/lang/src"
    echo "$3" >"$folder/$2.rlib/checked.a"
    {
        printf 'crate %s\nbytes %s\n' "$2" "$3"
        for below in ${4-}; do
            echo "over $below $(sha256sum <"$1/crates/$below/out/rlib/$below.rlib/format" | cut -d' ' -f1)"
        done
    } >"$folder/$2.rlib/format"
}
stamp() {
    python3 -B - "$@" <<'END'
import importlib.machinery, importlib.util, sys
loader = importlib.machinery.SourceFileLoader("prove", f"{sys.argv[1]}/tools/prove")
prove = importlib.util.module_from_spec(importlib.util.spec_from_loader("prove", loader))
loader.exec_module(prove)
crates = prove.crates_in(prove.rt_itself(), sys.argv[1])
for name in sys.argv[2:]:
    prove.stamped(crates[name], crates[name].stamp())
END
}
libraries() {
    library "$1" papaya_low one
    library "$1" papaya two papaya_low
    stamp "$1" papaya_low papaya
}

# Calls the script of the first repository; or that of the second, with the other kit and another home. What is said stays in files.
called() {
    local status=0
    "$@" >"$room/output" 2>"$room/errors" || status=$?
    echo "$status"
}
proofs() { called "$from/tools/proofs" "$@"; }
proofs_there() { (export HOME="$room/home" PATH="$room/kit/bin:$PATH" && called "$to/tools/proofs" "$@"); }
# All that is built in a repository, with the sums of its files.
built() { (cd "$1" && find crates/*/out -type f -print0 2>/dev/null | sort -z | xargs -0r sha256sum); }
# The same without what tells where it is from.
proved() { built "$1" | grep -v /brought; }

for words in '' 'use' 'pack' 'use a b' 'give a'; do
    # shellcheck disable=SC2086
    same "other words than it takes are refused: $words" 2 "$(proofs $words)"
done
same 'help is answered' 0 "$(proofs --help)"

# What is not proved, or not so, is not packed.
again='; nothing was packed. To prove all: tools/prove --here papaya papaya_run'
refused_to_pack() {
    same "not packed: $1" 1 "$(proofs pack "$room/file")"
    same "it is named: $1" "pack: $2$again" "$(cat "$room/errors")"
    silent "no file is written: $1" find "$room" -maxdepth 1 -name 'file*'
}
refused_to_pack 'nothing is built' 'papaya_low is not proved here'
library "$from" papaya_low one
stamp "$from" papaya_low
refused_to_pack 'one is built' 'papaya is not proved here'
libraries "$from"
echo '// more' >>"$from/crates/papaya/src/lib.rt"
refused_to_pack 'a source has changed since' 'papaya is proved of other sources'
echo '// papaya' >"$from/crates/papaya/src/lib.rt"
echo 'incremental' >>"$from/crates/papaya_low/out/rlib/papaya_low.rlib/format"
refused_to_pack 'a check has built it' 'papaya_low was built by a check, over work that it had kept'
library "$from" papaya_low 'one anew'
stamp "$from" papaya_low
refused_to_pack 'the builds do not fit' 'papaya was proved over another build of papaya_low than the one that is here'
libraries "$from"
echo 'another file' >"$from/crates/papaya_low/out/rlib/brought"
refused_to_pack 'it came from a file' 'papaya_low came from a file, and was not proved here'

# What is proved is packed: the same file each time, also where the gate has left it, which writes no stamp.
libraries "$from"
same 'what is proved is packed' 0 "$(proofs pack "$room/file")"
same 'it says how many' 'pack: 2 libraries, 0.0 MB' "$(sed 's/;.*//' "$room/output")"
rm "$from"/crates/*/out/rlib/stamp
same 'what the gate has left is packed' 0 "$(proofs pack "$room/file.again")"
same 'it is the same file' 0 "$(called cmp "$room/file" "$room/file.again")"
same 'a crate that there is not is refused' 1 "$(proofs pack "$room/file.none" papaya_jsn)"
same 'it is named' 'pack: crates.txt names no crate papaya_jsn' "$(cat "$room/errors")"
same 'it is a plain archive' $'PROOFS\npapaya/checked.a\npapaya/format\npapaya/lang/src/lib.rt' \
    "$(tar tf "$room/file" | grep -v papaya_low/)"

# It is taken with another folder of the kit, and another home.
same 'a repository lacks both' 0 "$(proofs_there lacks papaya_run)"
same 'they are named' $'papaya_low\npapaya' "$(cat "$room/output")"
same 'the file is taken' 0 "$(proofs_there use "$room/file")"
same 'it says whom to trust' 'use: papaya 0.1.0: 2 libraries were taken, and 0 were here
use: they were not proved here: you trust who made the file, as you trust who made the kit
use: to prove them here, and use none of it: tools/prove --here papaya papaya_run' \
    "$(sed "s/$(sed -n 's/^version //p' "$top/VERSION")/0.1.0/" "$room/output")"
stamp "$from" papaya_low papaya
same 'what was proved is there' "$(built "$from")" "$(proved "$to")"
same 'and nothing else' $'crates/papaya/out/rlib\ncrates/papaya_low/out/rlib' "$(cd "$to" && ls -d crates/*/out/*)"
same 'the repository lacks none' 0 "$(proofs_there lacks papaya_run)"
silent 'none is named' cat "$room/output"
same 'tools/prove takes them' 0 "$(cd "$to" && PATH="$room/kit/bin:$PATH" called tools/prove --kept "$room/kept" papaya)"
same 'as kept' $'papaya_low is kept\npapaya is kept' "$(cat "$room/output")"
git -C "$room" init -q user
same 'tools/take brings them to a user' 'take: they are proved on this machine or by whoever made file, whom you trust, so a first rt check there proves your own crates alone' \
    "$(PATH="$room/kit/bin:$PATH" called "$to/tools/take" "$room/user" >&2; tail -1 "$room/output")"
same 'as they are' "$(built "$to")" "$(built "$room/user")"
before="$(built "$to")"
same 'a second time there is nothing to do' 0 "$(proofs_there use "$room/file")"
same 'it says so' ': 0 libraries were taken, and 2 were here' "$(sed 's/.*papaya [^ ]*\(:.*\)/\1/' "$room/output")"
same 'all is as it was' "$before" "$(built "$to")"

# What is not of this kit, not of these sources or not as it was written is refused, and nothing is changed.
rm -r "$to"/crates/*/out
library "$to" papaya_low 'of other sources'
before="$(built "$to")"
refused_to_use() {
    same "not taken: $1" 1 "$(proofs_there use "${3-$room/file}")"
    same "it is said why: $1" "use: $2" "$(cat "$room/errors")"
    same "nothing is changed: $1" "$before" "$(built "$to")"
}
name="$(cat "$kit/KIT-ID")"
echo 'rattle-kit-0 logic 0' >"$room/kit/KIT-ID"
refused_to_use 'another kit' "$room/file is of $name, and rt is of rattle-kit-0 logic 0"
cp "$kit/KIT-ID" "$room/kit"
echo 'archive 0' >>"$room/kit/WHAT"
refused_to_use 'another build of the kit' "$room/file is of another build of $name than the kit of rt"
cp "$kit/WHAT" "$room/kit"
version="$(sed -n 's/^version //p' "$top/VERSION")"
other() { echo "$room/file is of version $version, and crates/$1, or its line of crates.txt, is not here as it was proved there"; }
echo '// more' >>"$to/crates/papaya_low/src/lib.rt"
refused_to_use 'other sources' "$(other papaya_low)"
echo '// papaya_low' >"$to/crates/papaya_low/src/lib.rt"
sed -i 's/^papaya: papaya_low/& std_io/' "$to/crates.txt"
refused_to_use 'another line of crates.txt' "$(other papaya)"
cp "$from/crates.txt" "$to"
sed -i 's/papaya_low/papaya_lo/g' "$to/crates.txt"
mv "$to/crates/papaya_low" "$to/crates/papaya_lo"
same 'not taken: a crate that is not here' 1 "$(proofs_there use "$room/file")"
same 'it is said' "use: $room/file has the library papaya_low, and there is no crate of that name here" "$(cat "$room/errors")"
mv "$to/crates/papaya_lo" "$to/crates/papaya_low"
cp "$from/crates.txt" "$to"
refused_to_use 'no file' "$room/none: No such file or directory" "$room/none"
echo 'a text' >"$room/text"
refused_to_use 'a text' "$room/text is damaged, or no file of proofs" "$room/text"
tar -C "$from" -cJf "$room/archive" HANDLES
refused_to_use 'another archive' "$room/archive is no file of proofs" "$room/archive"
head -c $(($(stat -c %s "$room/file") / 2)) "$room/file" >"$room/half"
refused_to_use 'half of it' "$room/half is damaged, or no file of proofs" "$room/half"

# Packs the file anew, with a change of a member.
changed() {
    rm -rf "$room/open" && mkdir "$room/open"
    tar -C "$room/open" -xf "$room/file"
    sed -i "$2" "$room/open/$1"
    tar -tf "$room/file" | tar -C "$room/open" -cJf "$room/changed" -T -
}
changed papaya/checked.a 's/two/too/'
refused_to_use 'a library that was changed' "$room/changed is damaged: papaya is not as it was packed" "$room/changed"
changed PROOFS 's/^kit .*/kit another/'
refused_to_use 'a list that was changed' "$room/changed is damaged: its list of libraries is not as it was written" "$room/changed"

# What is proved here stays. What does not fit it is not taken, and what to do is said.
library "$to" papaya_low 'by a check'
stamp "$to" papaya_low
before="$(built "$to")"
same 'one is proved here in another way' 1 "$(proofs_there use "$room/file")"
same 'it is said what stays, and what to do' 'use: papaya_low is built here in another way, and stays
use: papaya was not taken: it does not fit papaya_low
use: to take them remove what was built here, and run this again: rm -r crates/papaya_low/out/rlib' "$(tail -n +2 "$room/output")"
same 'it is as it was' "$before" "$(built "$to")"
library "$to" papaya_low one
same 'one that the gate has left here in the same way' 0 "$(proofs_there use "$room/file")"
same 'fits' ': 1 libraries were taken, and 1 were here' "$(sed -n '1s/.*papaya [^ ]*\(:.*\)/\1/p' "$room/output")"
silent 'and is not taken to be of the file' find "$to/crates/papaya_low/out/rlib" -name '*brought*'
same 'a check takes it' 0 "$(proofs_there lacks papaya_run)"
silent 'too' cat "$room/output"

# What was built over another build of a library that is taken is no more taken for built.
rm -r "$to"/crates/papaya{,_low}/out
library "$to" papaya_low 'another'
library "$to" papaya 'another' papaya_low
library "$to" papaya_more 'over another' 'papaya_low papaya'
stamp "$to" papaya_more
rm -r "$to"/crates/papaya{,_low}/out
same 'all is taken' 0 "$(proofs_there use "$room/file")"
same 'what stood on another build is gone' $'papaya\npapaya_low' "$(cd "$to/crates" && ls -d */out/rlib | cut -d/ -f1)"
library "$to" papaya_more 'over this' 'papaya_low papaya'
stamp "$to" papaya_more
rm -r "$to"/crates/papaya{,_low}/out
same 'all is taken again' 0 "$(proofs_there use "$room/file")"
same 'what stood on the same build is there' $'papaya\npapaya_low\npapaya_more' "$(cd "$to/crates" && ls -d */out/rlib | cut -d/ -f1)"

told proofs_pack.sh
