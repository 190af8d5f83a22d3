# What the shell tests compare with: `same WHAT WANTED FOUND`; `silent WHAT COMMAND..` where nothing is to be printed; and at
# their end `told NAME`.
passed=0
failed=0

# One case: what was wanted, and what came. An empty text is never wanted: a command that did not run would pass for it.
same() {
    if [[ -n "$2" && "$2" == "$3" ]]; then
        passed=$((passed + 1))
    else
        failed=$((failed + 1))
        printf '%s\n--- wanted\n%s\n--- found\n%s\n' "$1" "${2:-(nothing: take silent for that)}" "$3" >&2
    fi
}

# One case: the command ends well, and prints nothing.
silent() {
    local status=0 found
    found="$("${@:2}")" || status=$?
    same "$1" 'status 0, and no output' "status $status, and ${found:-no output}"
}

# How many cases passed, and whether all did, and there was one.
told() {
    echo "$1: $passed passed, $failed failed"
    [[ "$failed" == 0 && "$passed" != 0 ]]
}
