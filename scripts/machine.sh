# shellcheck shell=sh
# What this machine is, for the launcher and the tests: where the Rattle kit stands, how a program for
# x86-64 is run here, which compilers there are. To be sourced, with root set to the repository's folder.

# Prints the kit's folder, in which rt finds its own guide: START-HERE.md, which older kits have in docs/.
kit() {
    if ! command -v rt >/dev/null 2>&1; then
        echo "kinkhost: rt is not on the PATH: the Rattle kit is needed here" >&2
        return 2
    fi
    guide=$(rt doc) || return 2
    case $guide in
    */docs/START-HERE.md) printf '%s\n' "${guide%/docs/*}" ;;
    */START-HERE.md) printf '%s\n' "${guide%/*}" ;;
    *)
        echo "kinkhost: rt doc does not say where the kit is: $guide" >&2
        return 2
        ;;
    esac
}

on_arm() {
    case $(uname -m) in
    aarch64 | arm64) return 0 ;;
    esac
    return 1
}

# Asked of the file's first page, where a linker puts the loader's name: a program linked statically has
# none, and the kit's loader would refuse it.
dynamically_linked() { head -c 4096 -- "$1" | LC_ALL=C grep -q -a -F ld-linux-x86-64.so; }

# PROGRAM ARG...: runs a program for x86-64; its descriptors and its status are the caller's.
run_x86() {
    if on_arm; then emulated "$@"; else "$@"; fi
}

# As rt runs a program on Arm: under the kit's emulator, with the kit's loader and C library, and without
# the settings that the emulator takes from its environment. A subshell, so that they are left alone here.
emulated() (
    tools=$(kit) || exit 2
    tools=$tools/on/$(uname -m)/toolchain
    emulator=$tools/bin/qemu-x86_64
    if [ ! -x "$emulator" ]; then
        echo "kinkhost: the Rattle kit has no emulator for x86-64 at $emulator" >&2
        exit 2
    fi
    for word in $(env | sed -n 's/^\(QEMU_[A-Za-z0-9_]*\)=.*/\1/p'); do unset "$word"; done
    if dynamically_linked "$1"; then
        exec "$emulator" "$tools/lib/ld-linux-x86-64.so.2" --library-path "$tools/lib" "$@"
    fi
    exec "$emulator" "$@"
)

# ARG...: compiles and links C for x86-64. On Arm statically, as the C library for x86-64 is not there to
# be loaded when the program runs.
cc_x86() {
    if on_arm; then
        have x86_64-linux-gnu-gcc gcc-x86-64-linux-gnu libc6-dev-amd64-cross || return
        x86_64-linux-gnu-gcc -static "$@"
    else
        cc_native "$@"
    fi
}

# ARG...: compiles and links C for this machine.
cc_native() {
    if ! command -v gcc >/dev/null 2>&1 && command -v cc >/dev/null 2>&1; then
        cc "$@"
    else
        have gcc gcc libc6-dev || return
        gcc "$@"
    fi
}

# COMMAND PACKAGE...: sees to it that COMMAND is there, from the Debian PACKAGEs where it is missing.
have() {
    command -v "$1" >/dev/null 2>&1 && return
    wanted=$1
    shift
    if ! command -v apt-get >/dev/null 2>&1 || ! as_root true 2>/dev/null; then
        echo "kinkhost: $wanted is missing, and cannot be installed from here (it takes root and apt-get); the Debian packages: $*" >&2
        return 2
    fi
    echo "kinkhost: $wanted is missing: installing $* with apt-get" >&2
    # the first try fails where apt's lists are missing or out of date
    fetch "$@" || { as_root apt-get -qq update >&2 && fetch "$@"; }
    command -v "$wanted" >/dev/null 2>&1 && return
    echo "kinkhost: $wanted is missing, and apt-get could not install $*" >&2
    return 2
}

# Another apt-get at work is waited for.
fetch() {
    as_root env DEBIAN_FRONTEND=noninteractive apt-get -qq -y --no-install-recommends \
        -o DPkg::Lock::Timeout=300 install "$@" </dev/null >/dev/null 2>&1
}

as_root() {
    if [ "$(id -u)" = 0 ]; then "$@"; else sudo -n "$@"; fi
}
