# shellcheck shell=sh
# Sourced by host/run-tests, host/run-bench and host/run-profile: what to compile
# with, and the library, which is for x86-64.

script=$(basename "$0")
caller=$PWD
cd "$(dirname "$0")/.." || exit 2 # all names below are seen from the repository's root
out=target/host
library=target/staticlib/libmvozelanke.a
flags="-O2 -Wall -Wextra -Werror -Iinclude -Ihost"

die() {
    echo "$script: $*" >&2
    exit 2
}

# path_of FILE: a file that the caller named, seen from where the caller stands.
path_of() {
    case $1 in
    /*) echo "$1" ;;
    *) echo "$caller/$1" ;;
    esac
}

[ -z "${MVZ_LIBRARY-}" ] || library=$(path_of "$MVZ_LIBRARY")

install_packages() {
    command -v apt-get >/dev/null || die "please install: $*"
    echo "installing $*" >&2
    { apt-get update; apt-get install -y "$@"; } >&2 || die "cannot install: $*"
}

# wanted COMMAND PACKAGE...: installs the packages where the command is missing.
wanted() {
    wanted_command=$1
    shift
    command -v "$wanted_command" >/dev/null && return
    install_packages "$@"
    command -v "$wanted_command" >/dev/null || die "'$wanted_command' is missing (packages: $*)"
}

# shellcheck disable=SC2034 # the C++ compiler is for the scripts that want one
pick_tools() {
    case $(uname -m) in
    x86_64 | amd64)
        cc=gcc cxx=g++ cxx_package=g++
        wanted "$cc" gcc libc6-dev
        ;;
    *)
        die "no way is known to run x86-64 programs on $(uname -m)"
        ;;
    esac
}

prepare() {
    pick_tools
    [ -f "$library" ] || die "$library is missing: run 'tools/staticlib' first"
    mkdir -p "$out" || die "cannot make the folder $out"
}

# build NAME SOURCE...: a C program with the library, as target/host/NAME.
build() {
    program=$1
    shift
    # shellcheck disable=SC2086 # flags are several words
    "$cc" -std=c11 $flags -pthread "$@" "$library" -o "$out/$program" \
        || die "$program does not build"
}

# run NAME WORD...: a program that was built.
run() {
    program=$1
    shift
    "$out/$program" "$@"
}
