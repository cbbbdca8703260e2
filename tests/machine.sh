# shellcheck shell=bash
# Sourced by the scripts here and in examples/: where the library and the bench
# program are, and how a program is compiled and run on this machine. They are
# x86-64 code. On x86-64 plain gcc makes a program and it runs by itself; on
# aarch64 a cross compiler makes it, and it runs under an emulator.
#
#     find_library        finds the library or has it made; sets $library
#     find_program        the same for the bench; "${program[@]}" are the words that run it
#     find_compiler       sets $compiler, one for x86-64
#     compile OUT ARGS..  a program, with the library where $library is named
#     run PROGRAM ARGS..
#     tool OUT ARGS..     a program that has no part of the library, for this machine
#
# The library is $CLEFTROMI_LIB if that is set, else target/staticlib/libcleftromi.a;
# the bench is $CLEFTROMI_BENCH, else target/bin/bench.

root=$(cd "$(dirname "${BASH_SOURCE[0]}")/.." && pwd)
machine=$(uname -m)

stop() {
    echo "$*" >&2
    exit 2
}

# need COMMAND PACKAGES..: has the packages installed, only where the command is missing.
need() {
    local command=$1
    shift
    command -v "$command" >/dev/null && return
    echo "$command is missing: installing $*" >&2
    local as=()
    [ "$(id -u)" -eq 0 ] || as=(sudo -n)
    { "${as[@]}" apt-get -qq update && "${as[@]}" apt-get -qq -y install "$@"; } >/dev/null 2>&1
    command -v "$command" >/dev/null || stop "$command is missing, and apt-get could not install $*"
}

command -v rt >/dev/null || stop "the Rattle kit is missing: 'rt' is not on the PATH"
case $machine in
x86_64) emulator=() ;;
aarch64)
    need qemu-x86_64 qemu-user libc6-amd64-cross
    emulator=(qemu-x86_64 -L /usr/x86_64-linux-gnu)
    ;;
*) stop "there is no way here to run x86-64 programs on $machine" ;;
esac

# Whether a file that is made of the code is missing or older than code and proofs.
out_of_date() { # FILE
    [ ! -f "$1" ] || [ -n "$(find "$root/crates" -name out -prune -o \( -name '*.rt' -o -name '*.antt' \) -newer "$1" -print -quit)" ]
}

# Runs rt in the folder of a crate, and shows of what it says one line for each crate, or all where it fails.
proving() { # CRATE WORDS..
    local crate=$1
    shift
    echo "proving what has changed (all of it: some minutes, the crate chip the longest)" >&2
    mkdir -p "$root/target"
    (cd "$root/crates/$crate" && rt "$@" 2>&1 </dev/null) | tee "$root/target/proving.log" | grep --line-buffered '^crate ' >&2
    [ "${PIPESTATUS[0]}" -eq 0 ] && return
    cat "$root/target/proving.log" >&2
    stop "'rt $*' failed in crates/$crate"
}

# The library for C is that of the crate cleftromi_c, under the name that hosts know.
find_library() {
    library=${CLEFTROMI_LIB:-$root/target/staticlib/libcleftromi.a}
    if [ -z "${CLEFTROMI_LIB:-}" ] && out_of_date "$library"; then
        rm -f "$library"
        proving cleftromi_c lib
        mkdir -p "$(dirname "$library")" && cp "$root/crates/cleftromi_c/out/libcleftromi_c.a" "$library"
    fi
    [ -f "$library" ] || stop "there is no library at $library"
    library=$(readlink -f "$library") # a script may stand elsewhere when it compiles
}

# 'rt run' proves and builds the program, and runs it: here on no input.
find_program() {
    local path=${CLEFTROMI_BENCH:-$root/target/bin/bench}
    if [ -z "${CLEFTROMI_BENCH:-}" ] && out_of_date "$path"; then
        rm -f "$path"
        proving bench run
        mkdir -p "$(dirname "$path")" && cp "$root/crates/bench/out/bench" "$path"
    fi
    [ -f "$path" ] || stop "there is no bench program at $path"
    # shellcheck disable=SC2034 # for the scripts that source this
    program=("${emulator[@]}" "$(readlink -f "$path")")
}

# A compiler for x86-64: it is asked for by those who compile.
find_compiler() {
    case $machine in
    x86_64) need gcc gcc libc6-dev && compiler=gcc ;;
    *)
        need x86_64-linux-gnu-gcc gcc-x86-64-linux-gnu libc6-dev-amd64-cross
        compiler=x86_64-linux-gnu-gcc
        ;;
    esac
}

# Static, so that the emulator needs no x86-64 C library of its own.
compile() { # OUT ARGS..
    local out=$1
    shift
    find_compiler
    "$compiler" -std=c99 -O2 -Wall -Wextra -Werror -static -I"$root/include" -I"$root/tests" -o "$out" "$@"
}

run() { # PROGRAM ARGS..
    "${emulator[@]}" "$@"
}

# What has no part of the library runs by itself, without the emulator.
tool() { # OUT ARGS..
    local out=$1
    shift
    need gcc gcc libc6-dev
    gcc -std=c99 -O2 -Wall -Wextra -Werror -I"$root/include" -I"$root/tests" -o "$out" "$@"
}
