# How the program is started, in the repository and where it is installed. It is sourced.
# shellcheck shell=sh

# The level of this processor: x86-64-v3 if it has all that this level has beside x86-64-v2, else x86-64-v2.
level_of_processor() {
    flags=" $(grep -m 1 '^flags' /proc/cpuinfo) "
    for flag in avx avx2 bmi1 bmi2 f16c fma abm movbe xsave; do
        case $flags in
            *" $flag "*) ;;
            *)
                echo x86-64-v2
                return
                ;;
        esac
    done
    echo x86-64-v3
}

# Runs the program in the place of this shell. The C library then asks for huge pages, if the system has them, and keeps
# memory for the program that it gave back, in one arena for all threads: a long run takes a tenth to a quarter less
# time. The word -h before a command is the script's that calls this, and says its help.
start() { # the program, its words
    [ "${2-}" != -h ] || exec "$0" --help
    keep=glibc.malloc.mmap_threshold=4294967296:glibc.malloc.trim_threshold=4294967296:glibc.malloc.top_pad=67108864
    GLIBC_TUNABLES=${GLIBC_TUNABLES-glibc.malloc.hugetlb=1:$keep:glibc.malloc.arena_max=1}
    export GLIBC_TUNABLES
    exec "$@"
}
