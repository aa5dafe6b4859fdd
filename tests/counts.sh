# shellcheck shell=bash
# Sourced by the test scripts: how many cases passed and failed, and the last line that says so.
passed=0
failed=0

# Counts one case: passed where the command succeeds. Where it fails, the script's function explain, if it has one, may say more.
try() {
    local name=$1
    shift
    if "$@"; then
        passed=$((passed + 1))
    else
        failed=$((failed + 1))
        echo "FAILED $name"
        ! declare -F explain >/dev/null || explain
    fi
}

# Runs a command and adds the counts of its last line; one that ends badly, or without counts, is a failure of its own.
count() {
    local log status
    log=$(mktemp)
    "$@" 2>&1 | tee "$log"
    status=${PIPESTATUS[0]}
    if [[ $(tail -n 1 "$log") =~ ^([0-9]+)\ passed,\ ([0-9]+)\ failed$ ]]; then
        passed=$((passed + BASH_REMATCH[1]))
        failed=$((failed + BASH_REMATCH[2]))
        [ "$status" -eq 0 ] || [ "${BASH_REMATCH[2]}" -gt 0 ] || failed=$((failed + 1))
    else
        echo "FAILED $1 ended without its counts"
        failed=$((failed + 1))
    fi
    rm -f "$log"
}

# The same of a command that writes files with their numbers to its last argument; tools/model must judge each of them alike.
count_numbered() {
    local judged
    judged=$(mktemp)
    count "$@" >(tests/tools/judge > "$judged" 2>&1)
    wait $!
    echo "tools/model judge, on the same files:"
    count cat "$judged"
    rm -f "$judged"
}

# Prints the last line; fails where a case did.
conclude() {
    echo "$passed passed, $failed failed"
    [ "$failed" -eq 0 ]
}
