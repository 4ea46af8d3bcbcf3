# How a script of tests/ counts: a verdict on each thing that it tried, and the last line 'N passed, M failed'. Read in by all of them, and by
# ./test.
# shellcheck shell=sh
passed=0 failed=0

# Not every shell that a signal ends does what it is to do at its end, as removing its files.
trap 'exit 129' HUP
trap 'exit 130' INT
trap 'exit 143' TERM

verdict() { # STATUS WHAT
    if [ "$1" -eq 0 ]; then
        echo "ok: $2"
        passed=$((passed + 1))
    else
        echo "FAILED: $2"
        failed=$((failed + 1))
    fi
}

ended() {
    echo "$passed passed, $failed failed"
    [ "$failed" -eq 0 ]
    exit
}
