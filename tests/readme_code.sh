#!/usr/bin/env bash
# The documents quote the sources word for word: the Rust code of README.md stands in papaya_uses, where it is proved, and in
# examples/first.rs, that of docs/GUIDE.md in any crate or its tests, the definitions of docs/GUIDE.md and docs/DEFINITIONS.md
# in specs/, and the calls of docs/SIGNATURES.md in the sources. Examples in the comments of calls stand in papaya_uses_tests,
# which runs them (quoted_examples.py). papaya/specs re-export what contracts cite (reexports.py). README and CHANGELOG name the
# release and the kit of VERSION. Links between documents find their headings (links.py). README's sentences on times and memory
# are PERFORMANCE's (figures.py), whose tables of instructions have the same figures (speed_table.py).
set -euo pipefail
cd "$(dirname "${BASH_SOURCE[0]}")/.."

passed=0
failed=0

# quoted DOCUMENT LANGUAGE FILE..: each block of that language in the document stands in one of the files.
quoted() {
    local document="$1" language="$2" block="" inside=no line sources
    sources="$(cat "${@:3}")"$'\n'
    while IFS= read -r line; do
        case "$inside $line" in
            "no \`\`\`$language")
                inside=yes
                block=""
                ;;
            'yes ```')
                inside=no
                if [[ "$sources" == *"$block"* ]]; then
                    passed=$((passed + 1))
                else
                    failed=$((failed + 1))
                    printf 'readme_code.sh: %s quotes what does not stand there:\n%s\n' "$document" "$block" >&2
                fi
                ;;
            yes\ *) block+="$line"$'\n' ;;
        esac
    done <"$document"
}

# stands WHAT FOUND WANTED
stands() {
    if [[ "$2" == "$3" ]]; then
        passed=$((passed + 1))
    else
        failed=$((failed + 1))
        printf 'readme_code.sh: %s: %s, and not %s\n' "$1" "$2" "$3" >&2
    fi
}

# counted COMMAND..: takes over how many cases passed and failed, by the last line that the command prints. One that counts
# none, or ends badly, has failed.
counted() {
    local status=0 said
    said="$("$@" 2>&1)" || status=$?
    if [[ "$(tail -1 <<<"$said")" =~ ^[a-z_.]+:\ ([0-9]+)\ passed,\ ([0-9]+)\ failed$ && "$status" == 0 && "${BASH_REMATCH[1]}" -gt 0 ]]; then
        passed=$((passed + BASH_REMATCH[1]))
        failed=$((failed + BASH_REMATCH[2]))
    else
        failed=$((failed + 1))
        printf 'readme_code.sh: %s ended with status %s:\n%s\n' "$*" "$status" "$said" >&2
    fi
}

quoted README.md rust crates/papaya_uses/src/*.rt examples/first.rs
mapfile -t sources < <(find crates/*/src tests/crates -name '*.r[ts]')
quoted docs/GUIDE.md rust "${sources[@]}"
quoted docs/GUIDE.md antt crates/papaya_uses/specs/*.antt
quoted docs/CALLING.md rust crates/papaya_uses/src/*.rt docs/CONTRACTS.md
quoted docs/CALLING.md antt crates/papaya_uses/specs/*.antt
quoted docs/DEFINITIONS.md text crates/papaya_*/specs/*.antt

counted tools/signatures --check
counted python3 -B tests/quoted_examples.py
counted python3 -B tests/reexports.py
counted python3 -B tests/links.py
counted python3 -B tests/figures.py
counted python3 -B tests/speed_table.py
version="$(sed -n 's/^version //p' VERSION)"
date="$(sed -n 's/^date //p' VERSION)"
stands 'the release of README.md' "$(grep -oE 'release is [0-9.]+ of [0-9-]+' README.md)" "release is $version of $date"
stands 'the kit of README.md' "$(grep -o '`rattle-kit-[^`]*`' README.md)" "\`$(sed -n 's/^kit //p' VERSION)\`"
stands 'the newest release of CHANGELOG.md' "$(grep -m 1 '^## [0-9]' CHANGELOG.md)" "## $version ($date)"

echo "readme_code.sh: $passed passed, $failed failed"
[[ "$failed" == 0 && "$passed" -gt 2 ]]
