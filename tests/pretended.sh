# What tests/scripts tries the scripts of bin/ with. It is sourced after checks.sh, and goes to the folder of the repository.
# shellcheck shell=sh disable=SC2016,SC2154

# a repository of three crates, of which the program stands on one
mkdir -p "$room/repository" "$room/kit/bin"
cd "$room/repository" || exit 1
cp -R "$top/bin" "$top/share" . && mkdir release && cp "$top/release/speedex" release || exit 1
for crate in speedex sx_low sx_other; do
    mkdir -p "crates/$crate/src" "crates/$crate/specs" "crates/$crate/must-fail"
    echo "$crate" >"crates/$crate/src/lib.rt"
    echo "$crate" >"crates/$crate/must-fail/one.edit"
done
echo 'the program' >crates/speedex/src/main.rt
echo 'Handles allowed: none.' >HANDLES
printf '# crates\nspeedex: sx_low kit_crate\nsx_low:\nsx_other: sx_low\n' >crates.txt
cp crates.txt "$room/crates.txt"

# A toolchain that "proves" a program: it says its words, reads to the end of its input, and ends with 2 without words
# and with 6 at the word `refuse`. It proves no copy with more than the program's crates, nor with must-fail edits.
cat >"$room/kit/bin/rt" <<'TOOL'
#!/bin/sh
kit=$(dirname "$(dirname "$0")")
case $* in
    version)
        [ ! -f "$kit/other" ] || { echo 'kit-1 logic 4567'; exit; }
        echo 'kit-0 logic 0123'
        exit
        ;;
    doc)
        echo "$kit/START-HERE.md"
        exit
        ;;
esac
echo "called $*" >>"$kit/calls"
[ "$(cat crates.txt)" = "speedex: sx_low kit_crate
sx_low:" ] && [ -d .git ] && [ -f HANDLES ] && [ ! -d crates/sx_low/must-fail ] && [ "$*" = ci ] || exit 1
if [ -f "$kit/slow" ]; then
    echo "$$" >"$kit/new" && mv "$kit/new" "$kit/began"
    exec /bin/sleep 60
fi
if [ -f "$kit/breaks" ]; then
    printf '== sx_low\nerror: it does not compile\nrt: sx_low NOT PROVED\n'
    exec sleep 60
fi
for name in sx_low speedex; do
    mkdir -p "crates/$name/out/rlib/$name.rlib"
    echo "rt: $name proved"
done
"$kit/bin/rattle" build "$(cat crates/*/src/*)" -o crates/speedex/out/speedex
chmod +x crates/speedex/out/speedex
TOOL
cat >"$room/kit/bin/rattle" <<'TOOL'
#!/bin/sh
kit=$(dirname "$(dirname "$0")")
level=x86-64-v2
for word; do
    case $word in
        --cpu=*)
            level=${word#--cpu=}
            echo "called build $level" >>"$kit/calls"
            ;;
        sx_low=*) [ -d "${word#*=}" ] || exit 1 ;;
    esac
done
{
    printf '#!/bin/sh\n# %s %s\n' "$level" "$(cat "$kit/compiler" 2>/dev/null)"
    echo '[ "$#" -gt 0 ] || { echo "usage: .." >&2; exit 2; }'
    echo '[ "$1" != tunables ] || exec echo "$GLIBC_TUNABLES"'
    echo '[ "$1" != refuse ] || exit 6'
    echo 'cat >/dev/null'
    echo 'echo "$@"'
} >"$word"
TOOL
cat >"$room/kit/bin/rattle-link" <<'TOOL'
#!/bin/sh
cp "$7" "$6" && chmod +x "$6"
TOOL
printf '#!/bin/sh\nexec /bin/sleep 0.02\n' >"$room/kit/bin/sleep"
chmod +x "$room"/kit/bin/*
