#!/usr/bin/env bash
# tools/take puts papaya, and just what it stands on, into a fresh repository, a second time too, and loses nothing
# that was changed there. Nothing is proved or built here.
set -euo pipefail
top="$(cd "$(dirname "${BASH_SOURCE[0]}")/.." && pwd)"
room="$(mktemp -d)"
trap 'rm -rf "$room"' EXIT
source "$top/tests/same.sh"

# A copy of this repository without what is built, and a repository of a user.
mkdir -p "$room/from/crates" "$room/to" "$room/bin"
cp -a "$top/crates.txt" "$top/HANDLES" "$top/LICENSE" "$top/VERSION" "$top/tools" "$room/from"
for crate in "$top"/crates/*/; do
    mkdir "$room/from/crates/$(basename "$crate")"
    for part in src specs proofs; do
        [[ ! -d "$crate/$part" ]] || cp -a "$crate/$part" "$room/from/crates/$(basename "$crate")"
    done
done
git -C "$room/to" init -q
cp -a "$room/to" "$room/more"
printf 'shop: papaya\n' >"$room/to/crates.txt"
kit="$(sed -n 's/^kit //p' "$top/VERSION")"
printf '#!/usr/bin/env bash\necho "${KIT-%s}"\n' "$kit" >"$room/bin/rt"
chmod +x "$room/bin/rt"
PATH="$room/bin:$PATH"

from="$room/from"

# Takes into a repository; what is said stays in files.
take() {
    local status=0
    "$from/tools/take" "$@" >"$room/output" 2>"$room/errors" || status=$?
    echo "$status"
}
# The crates that a list has twice.
twice() { cut -d: -f1 "$1" | sort | uniq -d; }
# All that is in a repository, with the sums of its files.
whole() { (cd "$1" && find . -type f -not -path './.git/*' -print0 | sort -z | xargs -0r sha256sum); }

same 'a folder that is no repository is refused' 2 "$(take "$room/none")"
same 'a crate that there is not is refused' 2 "$(take "$room/more" papaya_jsn)"
silent 'nothing is taken then' ls "$room/more"
same 'a further crate is taken' 0 "$(take "$room/more" papaya_json)"
same 'a crate that is asked for comes too' $'papaya\npapaya_json' "$(ls "$room/more/crates" | grep -xE 'papaya|papaya_json')"
for time in first second; do
    same "the $time time it ends well" 0 "$(take "$room/to")"
    silent "the $time time nothing is amiss" cat "$room/errors"
    # every crate that a line or a source names is there, and no test, program or caller
    named="$(grep -hoE '\b(Rattle\.)?papaya[a-z_]*(::|\.)' -r "$room/to/crates" --include='*.rt' --include='*.antt' |
        sed 's/^Rattle\.//; s/[.:]*$//' | sort -u)"
    same "the $time time, what the crates name is there" "$named" "$(ls "$room/to/crates" | grep -xF "$named")"
    silent "the $time time, no crate is listed twice" twice "$room/to/crates.txt"
    same "the $time time, each crate is listed" "$(ls "$room/to/crates")" \
        "$(cut -d: -f1 "$room/to/crates.txt" | grep -v '^shop$' | sort)"
done
same 'it is said that a first check is long' 'take: 0 of them are proved on this machine, and a first rt check there proves the others, one by one: far over an hour for all;
take: better run tools/proofs use FILE in '"$from"', where you have a file of their proofs, or else
take: tools/prove --here papaya, half an hour to two hours for all on four processors, and then take again' "$(tail -n +2 "$room/output")"
silent 'no test, program or caller is taken' find "$room/to/crates" -mindepth 1 -maxdepth 1 -regextype egrep \
    -regex '.*_(tests|run|bench|uses)'
same 'the handles go along' "$(cat "$top/HANDLES")" "$(cat "$room/to/HANDLES")"
same "the user's own line stays" 'shop: papaya' "$(grep shop "$room/to/crates.txt")"
same 'the license goes along' "$(cat "$top/LICENSE")" "$(cat "$room/to/crates/papaya/LICENSE")"

# What was taken is on record, and so is the commit that it is of.
same 'TAKEN has version, date and kit' "$(cat "$top/VERSION")" "$(head -3 "$room/to/TAKEN")"
same 'TAKEN knows of no commit where there is none' 'commit unknown' "$(sed -n 4p "$room/to/TAKEN")"
same 'TAKEN has the sum of each file' 0 "$(cd "$room/to" && grep '  ' TAKEN | sha256sum --quiet -c >&2; echo $?)"
same 'of all crates that were taken' "$(cd "$room/to" && find crates/*/{src,specs,proofs} -type f 2>/dev/null | sort)" \
    "$(sed -n 's/.*  //p' "$room/to/TAKEN" | sort)"

# From here on: a repository of three small crates, and users of it.
mkdir -p "$room"/small/crates/papaya{,_low,_json}/{src,specs} "$room"/users/{one,own,bare}
for crate in papaya papaya_low papaya_json; do
    echo '// a file' | tee "$room/small/crates/$crate/src/lib.rt" >"$room/small/crates/$crate/specs/Some.antt"
done
printf 'papaya_low:\npapaya: papaya_low\npapaya_json staticlib: papaya\n' >"$room/small/crates.txt"
cp -a "$top/HANDLES" "$top/LICENSE" "$top/VERSION" "$top/tools" "$room/small"
for it in small users/one users/own users/bare; do
    git -C "$room/$it" init -q
done
git -C "$room/small" add .
git -C "$room/small" -c user.name=a -c user.email=a@b commit -qm one
commit="commit $(git -C "$room/small" rev-parse HEAD)"
from="$room/small"

cd "$room/users/one"
same 'a crate that is asked for' 0 "$(take . papaya_json)"
same 'is listed as it was' 'papaya_json staticlib: papaya' "$(tail -1 crates.txt)"
same 'TAKEN says which commit was taken' "$commit" "$(sed -n 4p TAKEN)"
echo '// more' >>"$from/crates/papaya_low/src/lib.rt"
same 'a second run' 0 "$(take .)"
same 'says that there were changes' "$commit, with changes" "$(sed -n 4p TAKEN)"
same 'brings what changed' '// more' "$(tail -1 crates/papaya_low/src/lib.rt)"
same 'brings the crate that was asked for before' 1 "$(grep -c '^papaya_json staticlib:' TAKEN)"
same 'and lists it once' 1 "$(grep -c '^papaya_json' crates.txt)"

# What was changed is not lost, nor this repository itself.
before="$(whole "$from")"
same 'the repository itself is refused' 2 "$(take "$from/crates/..")"
same 'it is as it was before' "$before" "$(whole "$from")"
echo '// changed there' >>crates/papaya/src/lib.rt
echo '// changed there' >crates/papaya_low/src/mine.rt
rm crates/papaya_json/src/lib.rt
sed -i 's/^papaya:.*/& shop/' crates.txt
before="$(whole .)"
same 'what was changed is not taken again' 1 "$(take .)"
same 'it is named' 'take: nothing was taken, since these were changed in . (take --overwrite loses the changes):
take: crates/papaya_low/src/mine.rt
take: crates.txt: papaya
take: crates/papaya/src/lib.rt
take: crates/papaya_json/src/lib.rt' "$(cat "$room/errors")"
same 'it is as it was' "$before" "$(whole .)"
same 'by a flag it is overwritten' 0 "$(take --overwrite .)"
silent 'what was taken is there then' diff -r -x LICENSE "$from/crates" crates
same 'the line too' 'papaya: papaya_low' "$(grep '^papaya:' crates.txt)"
rm -r "$from/crates/papaya_json"
same 'a crate that is none of these any more' 0 "$(take .)"
same 'is named' "take: crates/papaya_json of . is none of papaya's any more, and stays" "$(cat "$room/errors")"
same 'and stays' '// a file' "$(cat crates/papaya_json/src/lib.rt)"

# A crate that was there before is never touched. One that is just as it would be taken is taken.
cd "$room/users/own"
mkdir -p crates/papaya/src
cp -a "$from/crates/papaya_low" crates
echo '// changed there' >crates/papaya/src/lib.rt
printf 'papaya_low:\npapaya:\n' >crates.txt
before="$(whole .)"
for flag in '' --overwrite; do
    # shellcheck disable=SC2086
    same "a crate that was there before is not taken: $flag" 1 "$(take $flag .)"
    same "it is named: $flag" 'take: nothing was taken, since these were in . before, and are its own:
take: crates/papaya' "$(cat "$room/errors")"
    same "and all is as it was: $flag" "$before" "$(whole .)"
done
rm -r crates/papaya && sed -i '/^papaya:/d' crates.txt
same 'one that is as it would be taken is no harm' 0 "$(take .)"

# What a gate there would refuse is said.
cd "$room/users/bare"
echo 'Handles allowed: Wait.' >HANDLES
same 'a repository whose HANDLES lacks a word' 0 "$(KIT='rattle-kit-0' take .)"
same 'is told so, and that its kit is another' "take: HANDLES of . lacks Threads, so its gate will refuse papaya
take: these were proved with $kit, and rt is of rattle-kit-0" "$(cat "$room/errors")"
same 'its HANDLES stays' 'Handles allowed: Wait.' "$(cat HANDLES)"
echo 'Handles allowed: Threads, Wait, Net.' >HANDLES
same 'a repository whose HANDLES has more' 0 "$(take .)"
same 'is told what that costs' "take: HANDLES of . allows more than papaya's own, so the gate there proves papaya once for itself" \
    "$(grep HANDLES "$room/output")"
silent 'nothing is amiss there' cat "$room/errors"

told take.sh
