# What ./build, ./run, ./test, bench/measure and scripts of tests/ have in common: where the Rattle kit has its tools, how a program that they
# linked is run, whether something has to be built, how it is built, and how they say how far that is.
# shellcheck shell=sh disable=SC2034

# The shell takes the folders off: each process that is started is a millisecond of every ./run.
home=$(readlink -f "$(command -v rt)")
home=${home%/*/*}
tools=$home/toolchain
target=x86_64-unknown-linux-gnu
loader=$tools/lib/ld-linux-x86-64.so.2

# The kit's loader, and not the machine's: a program is linked against the kit's C library, which may be newer than that of the machine.
start() { # PROGRAM ARGUMENT..
    "$loader" --library-path "$tools/lib" "$@"
}

# Functions with variables of their own run in a shell of their own, so that their callers keep theirs.

# Prints these crates and all that they rest on, from the ground up: in crates.txt each stands behind those that it rests on.
made_of() ( # REPOSITORY CRATE..
    list=$1/crates.txt
    shift
    awk -v asked="$*" '
        { sub(/#.*/, "") }
        split($0, row, ":") == 2 {
            split(row[1], words, " ")
            name[++count] = words[1]
            below[count] = row[2]
        }
        END {
            for (n = split(asked, crates, " "); n; n--) wanted[crates[n]]
            for (each = count; each; each--)
                if (name[each] in wanted)
                    for (n = split(below[each], crates, " "); n; n--) wanted[crates[n]]
            for (each = 1; each <= count; each++)
                if (name[each] in wanted) print name[each]
        }' "$list"
)

# Whether a file is there and no source of the crates that it is made of is newer, nor a folder of sources, as where one was removed. What a
# check writes, in the folders out/ of the crates, is no source. One find looks at all, since every ./run waits for it.
is_fresh() ( # REPOSITORY FILE CRATE..
    repository=$1 file=$2
    shift 2
    [ -f "$file" ] || return 1
    crates=$(made_of "$repository" "$@")
    set -- "$repository/crates.txt"
    for crate in $crates; do
        for part in src specs proofs; do
            [ ! -d "$repository/crates/$crate/$part" ] || set -- "$@" "$repository/crates/$crate/$part"
        done
    done
    # It fails where it could not look at something, which may then be newer.
    newer=$(find "$@" -newer "$file") && [ -z "$newer" ]
)

# How long it is since a moment of `date +%s`.
since() ( # MOMENT
    seconds=$(($(date +%s) - $1))
    [ "$seconds" -lt 60 ] || printf '%s min ' $((seconds / 60))
    printf '%s s\n' $((seconds % 60))
)

# Says on standard error how many crates are proved, and since when they are being proved, and says it again until the next is told: on a
# terminal in one line, which is written anew each second; elsewhere, or if a script that passes on other words sets in_lines, in a line of its
# own, which comes again at least every half minute. Only a test sets seconds_between, so that it need not wait for that.
ticker=
in_lines=
is_one_line() { [ -t 2 ] && [ -z "$in_lines" ]; }

tell() { # WHO MOMENT PROVED COUNT REST
    stop_telling
    tell_once "$@"
    tell_again "$@" >/dev/null &
    ticker=$!
}

# It ends with the script, however that ends. The sleep that it leaves then ends within a second, and holds none of the script's files open.
tell_again() {
    if is_one_line; then between=1; else between=${seconds_between:-25}; fi
    slept=0
    while sleep 1 2>/dev/null && kill -0 $$ 2>/dev/null; do
        slept=$((slept + 1))
        [ $((slept % between)) -ne 0 ] || tell_once "$@"
    done
}

tell_once() {
    if is_one_line; then
        printf '\r%-72s' "$(count_told "$@")" >&2
    else
        printf '%s\n' "$(count_told "$@")" >&2
    fi
}

count_told() { printf '%s\n' "$1: $3 of $4 crates are proved after $(since "$2")$5"; }

stop_telling() {
    [ -n "$ticker" ] || return 0
    kill -KILL "$ticker" 2>/dev/null
    wait "$ticker" 2>/dev/null
    ticker=
}

# Leaves the line that is written anew.
leave_line() {
    stop_telling
    ! is_one_line || echo >&2
}

# Proves and builds these crates and all that they rest on, each in its folder, and tells how far that is. Code is built for every x86-64
# processor: rt by itself uses instructions that the first of them lack. Where a crate cannot be proved or built it says why, and is false.
prove() ( # WHO REPOSITORY CRATE..
    who=$1 repository=$2
    shift 2
    crates=$(made_of "$repository" "$@")
    count=$(printf '%s\n' "$crates" | wc -l | tr -d ' ') proved=0 begun=$(date +%s)
    for crate in $crates; do
        # Nothing more is begun where the script was told to end, and this shell was not.
        kill -0 $$ 2>/dev/null || return 1
        sources=$repository/crates/$crate
        tell "$who" "$begun" "$proved" "$count" "; next is $crate"
        if ! mkdir -p "$sources/out" 2>/dev/null || [ ! -w "$sources/out" ]; then
            leave_line
            printf '%s\n' "$who: $sources/out cannot be written, and nothing can be proved without that" >&2
            return 1
        fi
        if [ -f "$sources/src/main.rt" ]; then
            words='run --cpu x86-64'
        elif grep -q "^$crate staticlib:" "$repository/crates.txt"; then
            words='lib --cpu x86-64'
        else
            words=lib
        fi
        # rt runs a program once it is built. Here it gets no text, and what it prints goes where rt's own words go.
        # shellcheck disable=SC2086
        said=$(cd "$sources" && rt $words 2>&1 </dev/null) || {
            leave_line
            printf '%s\n' "$said" >&2
            case $said in
            *logic=not-proved*) printf '%s\n' "$who: $crate is not proved" >&2 ;;
            *) printf '%s\n' "$who: $crate could not be built; what rt says of it stands above" >&2 ;;
            esac
            return 1
        }
        proved=$((proved + 1))
    done
    tell "$who" "$begun" "$proved" "$count" ''
    leave_line
)

# Where the program of a crate stands that was built so. One in a folder out/ may be for later processors, as rt ci builds it.
program_of() { printf '%s\n' "$1/target/programs/$2"; } # REPOSITORY CRATE

# Proves and builds the program of a crate, unless it is fresh. It is put there whole: a part of it, as a full disk leaves, would count as fresh.
built() { # WHO REPOSITORY CRATE
    is_fresh "$2" "$(program_of "$2" "$3")" "$3" && return
    prove "$@" && mkdir -p "$2/target/programs" && cp "$2/crates/$3/out/$3" "$(program_of "$2" "$3").$$" &&
        mv -f "$(program_of "$2" "$3").$$" "$(program_of "$2" "$3")" && return
    rm -f "$(program_of "$2" "$3").$$"
    return 1
}
