#!/usr/bin/env bash
# tools/kit makes a kit with papaya and just what it stands on, a second time too. A stand-in for rt
# proves nothing, and writes libraries as rt ci does.
set -euo pipefail
top="$(cd "$(dirname "${BASH_SOURCE[0]}")/.." && pwd)"
room="$(mktemp -d)"
trap 'rm -rf "$room"' EXIT
source "$top/tests/same.sh"

# A repository of four crates, and a kit with one library.
mkdir -p "$room"/from/{tools,tests,crates/{papaya_low,papaya,papaya_more,papaya_run}/src} "$room"/first/{bin,rlibs/std.rlib,rattle/std,c}
cp "$top"/tools/{kit,need-rt,prove} "$room/from/tools"
echo 'import os; os.execvp("rt", ["rt", "ci"])' >"$room/from/tests/proofs.py"
cp "$top/HANDLES" "$room/from"
printf '# crates\npapaya_low:\npapaya: papaya_low std\npapaya_more: papaya\npapaya_run: papaya\n' >"$room/from/crates.txt"
touch "$room"/from/crates/{papaya_low,papaya,papaya_more}/src/lib.rt "$room/from/crates/papaya_run/src/main.rt"
cp -r "$top/LICENSE" "$top/docs" "$room/from"
echo 'one kit' >"$room/first/KIT-ID"
echo 'archive 1' >"$room/first/WHAT"
echo 'read me' >"$room/first/START-HERE.md"
cat >"$room/first/bin/rt" <<'END'
#!/usr/bin/env bash
kit="$(dirname "$(dirname "$(realpath "$0")")")"
case "$1" in
    doc) echo "$kit/START-HERE.md" ;;
    ci)
        [[ -z "${BROKEN-}" ]] || { echo "src/lib.rt:1:1: error: not proved" && exit 1; }
        for name in $(cut -d: -f1 crates.txt); do
            mkdir -p "crates/$name/out/rlib/$name.rlib"
            cat crates/$name/src/*.rt | sha256sum >"crates/$name/out/rlib/$name.rlib/format"
            echo "rt: $name proved"
        done
        ;;
esac
END
chmod +x "$room/first/bin/rt"
PATH="$room/first/bin:$PATH"

# Runs the script; what it says stays in files.
run() {
    local status=0
    "$room/from/tools/kit" "$@" >"$room/output" 2>"$room/errors" || status=$?
    echo "$status"
}

same 'help is answered' 0 "$(run --help)"
same 'no folder is refused' 2 "$(run)"
same 'a folder of something else is refused' 2 "$(run "$room/from")"
same 'a crate that there is not is refused' 2 "$(run "$room/kit" papaya_jsn)"
same 'a program is refused' 2 "$(run "$room/kit" papaya_run)"
same 'what is not proved is refused' 2 "$(BROKEN=yes run "$room/kit")"
same 'the error is shown' 'src/lib.rt:1:1: error: not proved' "$(grep error: "$room/errors")"
same 'nothing is made then' 'first from' "$(cd "$room" && ls -d first from kit* 2>/dev/null | xargs)"

same 'a kit is made' 0 "$(run "$room/kit")"
same 'each crate is named, with its time' 'kit: proving papaya_low
kit: papaya_low proved in N s, 1 of 2
kit: proving papaya
kit: papaya proved in N s, 2 of 2' "$(sed 's/ in [0-9]* s,/ in N s,/' "$room/errors")"
same 'its libraries' 'papaya.rlib papaya_low.rlib std.rlib' "$(ls "$room/kit/rlibs" | xargs)"
same 'their sources' 'papaya papaya_low std' "$(ls "$room/kit/rattle" | xargs)"
same 'its page on calling' '# Calling `papaya`' "$(head -1 "$room/kit/rattle/papaya/CALLING.md")"
same 'all else of the first kit' 'read me' "$(cat "$room/kit/START-HERE.md")"
same 'its rt finds the kit itself' "$room/kit/START-HERE.md" "$("$room/kit/bin/rt" doc)"
first="$(cat "$room/kit/WHAT")"
same 'it is told from the first kit' 'archive 1' "$(head -1 <<<"$first")"
same 'by a line of its own' 1 "$(grep -cE '^papaya [0-9a-f]{64}$' <<<"$first")"
same 'nothing else is left' 'first from kit' "$(cd "$room" && ls -d first from kit* | xargs)"
silent 'the repository has nothing built' find "$room/from" -name out
same 'a kit of a kit is refused' 2 "$(PATH="$room/kit/bin:$PATH" run "$room/other")"

echo '// more' >"$room/from/crates/papaya_low/src/lib.rt"
same 'a second run brings what changed' 0 "$(run "$room/kit" papaya_more)"
same 'and what is asked for' 'papaya.rlib papaya_low.rlib papaya_more.rlib std.rlib' \
    "$(ls "$room/kit/rlibs" | xargs)"
same 'the change is there' '// more' "$(cat "$room/kit/rattle/papaya_low/src/lib.rt")"
same 'and tells the two apart' no "$([[ "$(cat "$room/kit/WHAT")" == "$first" ]] && echo yes || echo no)"

told kit.sh
