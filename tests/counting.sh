# shellcheck shell=bash
# tests/counting.sh: counts checks. The scripts of tests/ and the gate source it; it gives them
#   passed, failed          how many checks went well, and how many did not
#   count STATUS NAME       counts one check by a known status, names it, and returns that status
#   fail NAME               counts one check that failed
#   check NAME COMMAND..    counts one check by a command, which gets no input; if it fails, shows what the command said
#   add PASSED FAILED       counts what another program has counted
#   indent                  copies standard input, set in under the name of the last check
#   finish                  prints the last line, 'N passed, M failed', and exits, with 1 if something failed

passed=0
failed=0

add() {
    passed=$((passed + $1))
    failed=$((failed + $2))
}

fail() {
    echo "FAILED: $1"
    add 0 1
}

count() {
    if [ "$1" -eq 0 ]; then
        echo "passed: $2"
        add 1 0
    else
        fail "$2"
    fi
    return "$1"
}

indent() { sed 's/^/  /'; }

check() {
    local name=$1 words
    shift
    words=$("$@" 2>&1 </dev/null)
    count $? "$name" || [ -z "$words" ] || indent <<<"$words"
}

finish() {
    echo "$passed passed, $failed failed"
    [ "$failed" -eq 0 ]
    exit
}
