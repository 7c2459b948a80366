# What the test scripts count with. A test is a command that succeeds or fails; a stage is a script whose last line is 'N passed, M failed'.
# shellcheck shell=bash

passed=0
failed=0

# counted TEXT: whether TEXT is such a last line; its two numbers are then in BASH_REMATCH
counted() {
    [[ $1 =~ ^([0-9]+)\ passed,\ ([0-9]+)\ failed$ ]]
}

# try NAME COMMAND..: one test, on one line; what the command wrote is shown where it fails
try() {
    local name=$1 output
    shift
    if output=$("$@" 2>&1); then
        passed=$((passed + 1))
        if counted "${output##*$'\n'}"; then
            name="$name (${output##*$'\n'})"
        fi
        echo "passed: $name"
    else
        failed=$((failed + 1))
        printf '%s\n' "$output"
        echo "FAILED: $name"
    fi
}

# stage COMMAND..: a script with tests of its own, whose numbers are added. One that stops without its last line, that runs no test, or that fails
# while it counts no failure, is a failure itself.
stage() {
    local log status=0
    log=$(mktemp)
    "$@" | tee "$log" || status=$?
    if counted "$(tail -n 1 "$log")"; then
        passed=$((passed + BASH_REMATCH[1]))
        failed=$((failed + BASH_REMATCH[2]))
        if ((BASH_REMATCH[1] + BASH_REMATCH[2] == 0)); then
            failed=$((failed + 1))
            echo "FAILED: '$*' ran no test"
        elif ((status != 0 && BASH_REMATCH[2] == 0)); then
            failed=$((failed + 1))
            echo "FAILED: '$*' ended with status $status"
        fi
    else
        failed=$((failed + 1))
        echo "FAILED: '$*' stopped without saying how many passed (status $status)"
    fi
    rm -f "$log"
}

# logged FILE COMMAND..: the command, whose output goes to FILE too
logged() {
    mkdir -p "$(dirname "$1")"
    "${@:2}" | tee "$1"
}

# in_crate NAME COMMAND..: the command in the folder of a crate
in_crate() {
    (cd "crates/$1" && "${@:2}")
}

# need COMMAND PACKAGE WHY: without the command the script fails here, and says which package of Debian has it
need() {
    if ! command -v "$1" >/dev/null; then
        echo "FAILED: $1 is missing (Debian's package $2): $3"
        failed=$((failed + 1))
        report || exit
    fi
}

# report: the last line of a script, and its exit status
report() {
    echo "$passed passed, $failed failed"
    ((failed == 0))
}
