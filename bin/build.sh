# Proves the program's crates and builds the program. It is sourced after bin/sources.sh, and `say` and `fail` are the
# functions of the script that does so.
# shellcheck shell=sh disable=SC2034,SC2154

# The proofs are those of the merge gate: `rt ci`, which proves crates side by side and keeps what passed beside the
# toolchain, by the bytes that it read. So what one build or a run of the gate proved is not proved again. Here it runs
# on a copy of the program's crates alone, without their must-fail edits, which show something of the contracts and
# nothing of the program. The copy is a repository of its own, by its folder .git, and stays as it is meanwhile.
room=
rt=

# Ends a build, and removes what it began.
clean() {
    [ -z "$rt" ] || kill "$rt" 2>/dev/null
    [ -z "$room" ] || rm -rf "$room"
}

begin() {
    command -v rt >/dev/null || fail 127 "rt is not on the PATH, and the program has to be proved and built"
    trap clean EXIT
    trap 'fail 129 "the build was interrupted"' HUP
    trap 'fail 130 "the build was interrupted"' INT
    trap 'fail 143 "the build was interrupted"' TERM
    room=$(mktemp -d) || fail 125 "no folder for temporary files"
    log=$room/log
    : >"$log"
    copy "$room/copy" || fail 125 "the sources could not be copied to $room/copy"
}

end() {
    clean
    room=
    trap - EXIT HUP INT TERM
}

# Copies what the program is made of, and what it is run on.
copy() { # the folder
    mkdir "$1" "$1/.git" || return
    crate_lines >"$1/crates.txt" || return
    [ ! -f "$top/HANDLES" ] || cp "$top/HANDLES" "$1" || return
    for folder in $(folders); do
        mkdir -p "$1/$(dirname "$folder")" || return
        cp -R "$top/$folder" "$1/$folder" || return
    done
    for name in args data status stdin stdout; do
        [ ! -e "$crate/$name" ] || cp -R "$crate/$name" "$1/crates/speedex" || return
    done
}

# The digest of the sources in the copy.
copied() {
    (top=$room/copy && sources)
}

# Each crate with its size, which tells about how long its proof takes.
sizes() {
    for name in $(crates); do
        echo "$name $(cat "$room/copy/crates/$name"/*/*.* "$room/copy/crates/$name"/*/*/*.* 2>/dev/null | wc -c)"
    done
}

# Says how many crates are proved, if they are more than when it was last asked, and about how long the others take: as
# long for their size as those that were proved in this run.
shown=0
progress() { # how many seconds it took so far
    line=$(awk -v took="$1" '
        FNR == NR { size[$1] = $2; crates++; left += $2; next }
        $1 == "rt:" && $2 in size && !($2 in ended) && (NF == 3 && $3 == "proved" || $3 == "is" && $4 == "kept:") {
            ended[$2]; count++; left -= size[$2]
            if ($3 == "proved") proved += size[$2]
        }
        END {
            printf "%d %d of %d crates are proved", count, count, crates
            if (proved && left > 0) printf ", and the others take about %d min", took * left / proved / 60 + 1
        }' "$room/sizes" "$log")
    [ "${line%% *}" -gt "$shown" ] || return 0
    shown=${line%% *}
    say "${line#* }"
}

# Says where a build failed: at the first unproved goal, or else at the first error, or else what rt said last.
explain() {
    item='^[a-z]* [^ ]*: no[t ][ ]*pro'
    if grep -q -e "$item" "$log"; then
        say "not proved: $(first "$item" | sed 's/: no[t ].*//')"
        say "$(first 'it is not proved that')"
    elif grep -q 'error[:[]' "$log"; then
        say "$(first 'error[:[]')"
    else
        say "rt ended early: $(sed '/ NOT PROVED/,$d' "$log" | tail -n 1 | cut -c 1-300)"
    fi
}

# Prints the first line of the log that has this pattern, up to 300 characters.
first() { # the pattern
    grep -e "$1" "$log" | head -n 1 | cut -c 1-300
}

# Ends with 126, and keeps what the toolchain said.
refuse() {
    explain
    mkdir -p "$crate/out" && cp "$log" "$crate/out/build.log"
    fail 126 "the program could not be built; all that rt said is in $crate/out/build.log"
}

# Proves the copy, and ends at the first crate that is not proved.
prove() {
    sizes >"$room/sizes"
    say "proving $(grep -c . "$room/sizes") crates side by side, which can take half an hour and more if none is kept"
    begun=$(date +%s)
    (cd "$room/copy" && exec rt ci </dev/null) >"$log" 2>&1 &
    rt=$!
    while kill -0 "$rt" 2>/dev/null && ! grep -q '^rt: .* NOT PROVED' "$log"; do
        sleep 1
        progress "$(($(date +%s) - begun))"
    done
    if grep -q '^rt: .* NOT PROVED' "$log"; then
        refuse
    fi
    wait "$rt" || refuse
    rt=
    [ -x "$room/copy/crates/speedex/out/speedex" ] || refuse
}

# Puts the proved program for processors of a level at `made`. The one that `rt ci` built is for x86-64-v2. For others
# the crate of the program, which is small, is checked and built again over the libraries that were proved.
make() { # the level
    made=$room/copy/crates/speedex/out/speedex
    [ "$1" != x86-64-v2 ] || return 0
    made=$room/$1
    say "building the program for $1"
    kit=$(dirname "$(rt doc)")
    (compile "$1") >>"$log" 2>&1 &
    rt=$!
    wait "$rt" || refuse
    rt=
    link "$1" >>"$log" 2>&1 || refuse
}

# Builds the program as `rt run --cpu=LEVEL` does, over libraries that `rt ci` has proved, which `rt run` would prove
# anew. The compiler and the linker work on files of fixed names in folders of their own, and the linker names the program
# by a digest of its bytes, so neither a path nor the time is in it.
compile() { # the level
    cd "$room/copy/crates/speedex" || return
    level=$1
    set -- --crate-name speedex src/main.rt --extern "std=$kit/rlibs/std.rlib" -L "dependency=$kit/rlibs"
    for name in $(crate_lines | sed -n 's/^speedex *://p'); do
        if [ -d "../$name" ]; then
            set -- "$@" --extern "$name=$room/copy/crates/$name/out/rlib/$name.rlib"
        else
            set -- "$@" --extern "$name=$kit/rlibs/$name.rlib"
        fi
    done
    for name in $(crates); do
        [ "$name" = speedex ] || set -- "$@" -L "dependency=$room/copy/crates/$name/out/rlib"
    done
    set -- "$@" --antt-project "$kit/rattle/logic/antt-project.json" --logic-built "$kit/logic_built"
    set -- "$@" --links speedex= "--cpu=$level" --toolchain "$kit/toolchain" --backend llvm
    exec "$kit/bin/rattle" build "$@" -o "$room/$level.o"
}

link() { # the level
    "$kit/bin/rattle-link" --target x86_64-unknown-linux-gnu --toolchain "$kit/toolchain" -o "$room/$1" \
        "$room/$1.o" "$kit/c/libos_c.a" "$kit/c/liblibc_c.a"
}
