# What the scripts of bin/ share: of which files the program is made, which programs stand, and what was noted of them.
# It is sourced, and `top` is the top folder of the repository.
# shellcheck shell=sh disable=SC2154

# the program that is proved and built here, of what it was built, and what was seen of the released one
crate=$top/crates/speedex
program=$crate/out/speedex
built=$crate/out/built
seen=$crate/out/released
# the released program, and of what it was built
release=$top/release
manifest=$release/manifest
listed=
summed=

digest() {
    sha256sum | cut -d ' ' -f 1
}

# The lines of crates.txt for the program's crate and those below it, sorted, without comments and with single blanks.
crate_lines() {
    awk -F: '
        { sub(/#.*/, ""); gsub(/[ \t]+/, " "); sub(/ ?: ?/, ": "); sub(/ $/, "") }
        /[^ ]/ { split($1, head, " "); line[head[1]] = $0; below[head[1]] = $2 }
        END {
            wanted["speedex"]
            do {
                rising = 0
                for (crate in wanted) {
                    count = split(below[crate], names, " ")
                    for (i = 1; i <= count; i++)
                        if (names[i] in below && !(names[i] in wanted)) { wanted[names[i]]; rising = 1 }
                }
            } while (rising)
            for (crate in wanted) print line[crate]
        }' "$top/crates.txt" | LC_ALL=C sort
}

crates() {
    crate_lines | sed 's/[: ].*//'
}

# The folders that have the files that the program is made of.
folders() {
    for name in $(crates); do
        for folder in src specs proofs; do
            [ ! -d "$top/crates/$name/$folder" ] || echo "crates/$name/$folder"
        done
    done
}

# The files that the program is made of, beside its lines in crates.txt.
files() {
    folders | (cd "$top" && xargs sh -c 'find "$@" -type f -print' sh) | LC_ALL=C sort
}

# One digest over their names and bytes, and over the lines of crates.txt.
sources() {
    { crate_lines && files | (cd "$top" && xargs sha256sum); } | digest
}

# One digest over their names, sizes and times, and those of the programs, which changes if one of them is written.
listing() {
    {
        echo crates.txt
        folders
        for file in crates/speedex/out/speedex release/manifest release/x86-64-v2/speedex release/x86-64-v3/speedex; do
            [ ! -f "$top/$file" ] || echo "$file"
        done
    } | (cd "$top" && xargs sh -c 'find "$@" -type f -printf "%p %s %T@ %C@ %i\\n"' sh) | LC_ALL=C sort | digest
}

# What a note has after a word: of the program that was built here, and of the released one.
noted() { # the word
    sed -n "s/^$1 //p" "$built" 2>/dev/null
}

manifested() { # the word
    sed -n "s/^$1 //p" "$manifest" 2>/dev/null
}

# Writes what comes on standard input to a file, under another name first.
write() { # the file
    cat >"$1.$$" && mv -f "$1.$$" "$1"
}

# Notes beside the program of what it was built.
note() { # the digest of the sources, the level of the processors
    kit=$(rt version 2>/dev/null) || kit='unknown logic unknown'
    {
        echo "sources $1"
        echo "program $(digest <"$program")"
        echo "kit ${kit%% *}"
        echo "logic ${kit##* }"
        echo "cpu $2"
    } | write "$built"
}

# Notes that the files of this listing are those that the program was built of, so that they need not be read again.
note_listing() { # the listing
    { grep -v '^listing ' "$built"; echo "listing $1"; } | write "$built"
}

# The listing and the digest of the sources as they were when first asked for.
look() {
    listed=${listed:-$(listing)}
}

read_all() {
    summed=${summed:-$(sources)}
}

# Whether the program that was built here was built of the files that stand. If nothing was noted, as after the merge
# gate, it has to be newer than all of them, and that is noted.
is_built() {
    [ -x "$program" ] || return 1
    if [ -f "$built" ]; then
        look
        [ "$(noted listing)" != "$listed" ] || return 0
        [ "$(noted program)" = "$(digest <"$program")" ] || return 1
        read_all
        [ "$(noted sources)" = "$summed" ] || return 1
        { note_listing "$listed"; } 2>/dev/null || rm -f "$built.$$" 2>/dev/null
    else
        # shellcheck disable=SC2016
        newer=$(cd "$top" && { echo crates.txt && files; } | xargs sh -c 'find "$@" -newer "$0" -print' "$program")
        [ -z "$newer" ] || return 1
        { note "$(sources)" x86-64-v2; } 2>/dev/null || rm -f "$built.$$" 2>/dev/null
    fi
    return 0
}

# Whether the files of the release are those of its manifest, which is of the files that stand. What is seen is noted,
# so that they need not be read again.
is_released() {
    [ -f "$manifest" ] || return 1
    look
    [ "$(cat "$seen" 2>/dev/null)" != "$listed" ] || return 0
    read_all
    [ "$(manifested sources)" = "$summed" ] && has_its_files || return 1
    { mkdir -p "$crate/out" && echo "$listed" | write "$seen"; } 2>/dev/null || rm -f "$seen.$$" 2>/dev/null
    return 0
}

# Whether the files of the release have the digests of its manifest.
has_its_files() {
    grep '^[0-9a-f]\{64\}  ' "$manifest" | (cd "$release" && sha256sum --quiet -c) >/dev/null 2>&1
}
