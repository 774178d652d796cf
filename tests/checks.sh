# What the shell scripts here share. It is sourced first, goes to the top of the repository, and makes a folder `room`.
# Each check writes a line that begins with `ok` or `not ok`, and `# ` and why after the second. The exit code is
# `failed`, 0 or 1.
# shellcheck shell=sh disable=SC2034
set -u
CDPATH='' cd "$(dirname "$0")/.." || exit 1
top=$(pwd -P)
failed=0
room=$(mktemp -d) || exit 1
trap 'rm -rf "$room"' EXIT
trap 'exit 129' HUP
trap 'exit 130' INT
trap 'exit 143' TERM

passes() { # what it is
    echo "ok $1"
}

# Text that comes on standard input says why.
fails() { # what it is
    echo "not ok $1"
    head -n 20 | cut -c 1-200 | sed 's/^/# /'
    failed=1
}

# The command has to end with 0.
check() { # what it is, the command and its words
    what=$1
    shift
    if "$@" >"$room/said" 2>&1; then
        passes "$what"
    else
        fails "$what" <"$room/said"
    fi
}

# Two files have to have the same bytes.
same() { # what it is, the one, the other
    check "$1" cmp "$2" "$3"
}

# The program that stands for these sources, which is not built here, or another one that the caller names.
find_program() {
    program=${SPEEDEX_PROGRAM:-$(bin/speedex --path)}
    [ -x "$program" ] || exit 2
}

# Wants the exit code of the last run, and the text that it wrote to standard error, `room`/err.
wants() { # what it is, the code that came, the code, the text
    if [ "$2" -ne "$3" ]; then
        { echo "exit code $2, and not $3" && cat "$room/err"; } | fails "$1"
    elif ! printf '%s' "$4" | cmp -s - "$room/err"; then
        { echo "other text on standard error:" && cat "$room/err"; } | fails "$1"
    else
        passes "$1"
    fi
}

# Runs the program in the folder `room`.
ends() { # what it is, the program's words, the code, the text, the input, the output
    # shellcheck disable=SC2086
    (cd "$room" && exec "$program" $2 <"$5" >"$6" 2>err)
    wants "$1" "$?" "$3" "$4"
}

records() { # the words of examples/records.py
    python3 "$top/examples/records.py" "$@"
}
