# How ./test, and each test that takes apart what was built, comes by objdump. Read in by these.
# shellcheck shell=sh disable=SC2154

# Has Debian's package binutils installed, which has objdump, unless objdump is here; what is installed, and why, is said before.
bring_objdump() { # WHO
    ! command -v objdump >/dev/null 2>&1 || return 0
    echo "$1: objdump is not here, by which tests take apart what was built; apt-get installs Debian's package binutils, which has it"
    { apt-get update && apt-get install -y binutils; } >"$room/log" 2>&1 || cat "$room/log"
}

# The same, as a verdict; without objdump the test ends.
need_objdump() { # TEST
    bring_objdump "$1"
    command -v objdump >/dev/null 2>&1
    verdict $? "objdump is here"
    [ "$failed" -eq 0 ] || ended
}
