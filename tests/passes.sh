# Counts tests, for the scripts beside it, which read this file.
# shellcheck shell=sh
passed=0
failed=0

# Tests that the rest of the words is a command that ends with 0; $1 names the test.
passes() {
    name=$1
    shift
    if "$@"; then
        passed=$((passed + 1))
    else
        failed=$((failed + 1))
        printf '  failed: %s\n' "$name"
    fi
}

# Ends the script; $1 names all its tests.
finish() {
    printf '%s: %s passed, %s failed\n' "$1" "$passed" "$failed"
    [ "$failed" -eq 0 ]
    exit
}
