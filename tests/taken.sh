#!/usr/bin/env bash
# The libraries that tools/prove has proved go along with tools/take: the first `rt check` of a user's crate proves that one
# alone. A repository of three crates with a function each stands for this one, so the proofs take a minute or two.
set -euo pipefail
top="$(cd "$(dirname "${BASH_SOURCE[0]}")/.." && pwd)"
room="$(mktemp -d)"
trap 'rm -rf "$room"' EXIT
source "$top/tests/same.sh"

# A crate of that name below a folder, whose function is the one of the crate that it stands on.
crate() {
    local body="${3:+$3::one()}"
    mkdir -p "$1/crates/$2/src"
    cat >"$1/crates/$2/src/lib.rt" <<END
//! One function.
#![tactic(auto)]

ghost use Rattle.std.specs.Prelude.{◌≡◌};

/// Returns one.
pub fn one() -> u64
    ensures { result ≡ 1 }
{
    ${body:-1}
}
END
    echo "$2: ${3-}" >>"$1/crates.txt"
}
from="$room/from"
mkdir -p "$from/tests"
cp "$top/tests/proofs.py" "$from/tests"
cp -a "$top/HANDLES" "$top/LICENSE" "$top/VERSION" "$top/tools" "$from"
crate "$from" papaya_low
crate "$from" papaya papaya_low
crate "$from" papaya_more papaya

# A user's repository, whose handles are others than those with which the libraries are proved.
to="$room/to"
crate "$to" shop papaya
echo 'Handles allowed: Threads, Wait, Net.' >"$to/HANDLES"
for it in "$from" "$to"; do
    git -C "$it" init -q
done

# What take says of the proofs (take.sh has what it says where there are none), and what a check says of functions and of
# the libraries that it builds.
take() { "$from/tools/take" "$to" "$@" | tail -n +3; }
check() {
    (cd "$to/crates/$1" && rt check) 2>&1 | grep -E '^(fn |logic=|rt: chose )' | sed 's/ functions=.*//; s/--jobs [0-9]*/--jobs N/'
}

same 'two of the three are proved' 0 "$("$from/tools/prove" --here papaya >&2 && echo 0)"
alone='take: they are proved on this machine, so a first rt check there proves your own crates alone'
same 'what it has proved goes along' "$alone" "$(take)"
same 'a first check proves the crate alone' 'rt: chose --jobs N for shop
fn shop::one: proved
logic=proved' "$(check shop)"
same 'of three crates two are proved' 'take: 2 of them are proved on this machine, and a first rt check there proves the others, one by one: far over an hour for all;' \
    "$(take papaya_more | head -1)"
same 'a check of the third begins with these' 'rt: chose --jobs N for papaya_more
fn papaya_more::one: proved
logic=proved' "$(check papaya_more)"

# What the gate has proved here goes along too, as long as nothing changes here.
rm -rf "$from"/crates/*/out
same 'the gate proves all three' 0 "$(cd "$from" && rt ci >&2 && echo 0)"
same 'what it has proved goes along' "$alone" "$(take)"
same 'a check of the third proves it alone' 'rt: chose --jobs N for papaya_more
fn papaya_more::one: proved
logic=proved' "$(check papaya_more)"
touch "$from/crates/papaya_low/src/lib.rt"
same 'a file that is newer keeps them back' 'take: 0 of them are proved' "$(take | grep -o 'take: 0 of them are proved')"
touch "$from"/crates/*/out/rlib/*.rlib/format
same 'they go along again' "$alone" "$(take)"

# A change there is proved, over and below what was brought.
sed -i 's/    1$/    0 + 1/' "$to/crates/papaya_low/src/lib.rt"
same 'a change of a library there' 'rt: chose --jobs N for papaya_low
fn papaya_low::one: proved
logic=proved
rt: chose --jobs N for papaya
fn papaya::one: proved
logic=proved
rt: chose --jobs N for shop
fn shop::one: proved
logic=proved' "$(check shop)"
sed -i 's/    0 + 1$/    2/' "$to/crates/papaya_low/src/lib.rt"
same 'a wrong one is refused' 'fn papaya_low::one: no proof' "$(check shop | grep -o 'fn .*: no[t ]*proof' || true)"

told taken.sh
