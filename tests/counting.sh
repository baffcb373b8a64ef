# shellcheck shell=bash
# Read by scripts that run several tests: adds up what passed and failed in them.
log=$(mktemp)
trap 'rm -f "$log"' EXIT
passed=0
failed=0

# Runs a command and adds the counts of its last line. A command that has no such line, or fails without a failure in it, counts as a failure.
count() {
    "$@" | tee "$log"
    local status=${PIPESTATUS[0]} counts
    read -r -a counts <<<"$(tail -n 1 "$log")"
    if [[ "${counts[*]:-}" =~ ^[0-9]+\ passed,\ [0-9]+\ failed$ ]]; then
        passed=$((passed + counts[0]))
        failed=$((failed + counts[2]))
        [ "$status" -eq 0 ] || [ "${counts[2]}" -gt 0 ] || failed=$((failed + 1))
    else
        failed=$((failed + 1))
    fi
}

# Prints the counts of all commands in the last line. The status is 0 where none failed.
end_of_counts() {
    printf '%s passed, %s failed\n' "$passed" "$failed"
    [ "$failed" -eq 0 ]
}
