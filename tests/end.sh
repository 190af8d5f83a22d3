# Ends a process and all that it has started, itself first, so that it starts nothing else: `end PROCESS`.
end() {
    local it under
    under="$(cat "/proc/$1/task/"*/children 2>/dev/null)" || true
    kill "$1" 2>/dev/null || true
    for it in $under; do
        end "$it"
    done
}
