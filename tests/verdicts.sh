# A folder to work in, verdicts and their count. Read in by the tests at the root of the repository; $suite is the test's name.
# shellcheck shell=sh disable=SC2154
work=$(mktemp -d) || exit 2
trap 'rm -rf "$work"' EXIT
trap 'exit 2' HUP INT TERM
passed=0
failed=0

verdict() { # LABEL STATUS
    if [ "$2" -eq 0 ]; then
        passed=$((passed + 1))
    else
        failed=$((failed + 1))
        echo "$suite: $1: FAILED"
    fi
}

same() { # LABEL GOT DUE
    cmp "$2" "$3"
    verdict "$1" $?
}

# Without what it builds a test cannot go on.
build() { # COMMAND..
    "$@" >"$work/log" 2>&1 && return 0
    tail -n 5 "$work/log"
    echo "$suite: $* failed"
    echo "0 passed, 1 failed"
    exit 1
}

total() {
    echo "$passed passed, $failed failed"
    [ "$failed" -eq 0 ] && [ "$passed" -gt 0 ]
}
