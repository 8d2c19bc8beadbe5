# shellcheck shell=sh
# For the tests of the C side: cases that are tried one after the other and counted, and C compiled over the archive. To
# be sourced, with root set to the repository's folder and part to the test's name.
# shellcheck source=scripts/machine.sh
. "${root:?}/scripts/machine.sh"
archive=$root/crates/kinkhost/out/libkinkhost.a
work=$(mktemp -d) || exit 1
trap 'rm -rf "$work"' EXIT
trap 'exit 1' HUP INT TERM
LC_ALL=C
export LC_ALL
cases=0
failed=0

if [ ! -f "$archive" ]; then
    echo "${part:?}: $archive is missing: rt lib in crates/kinkhost writes it" >&2
    exit 1
fi

# NAME COMMAND...: a case, right where COMMAND succeeds; what it said is shown where it does not.
try() {
    name=$1
    shift
    cases=$((cases + 1))
    if "$@" >"$work/said" 2>&1; then
        echo "ok $name"
    else
        failed=$((failed + 1))
        echo "FAILED $name"
        sed 's/^/    /' "$work/said"
    fi
}

# FOLDER ARG...: compiles for x86-64 with the header of FOLDER; any warning is an error.
compile() {
    headers=$1
    shift
    cc_x86 -std=c11 -Wall -Wextra -Werror -Wpedantic -Wshadow -Wconversion -O2 -I "$headers" "$@" "$archive"
}

# Says how many cases there were; the status is 0 where all were right.
say_cases() {
    echo "$part: $cases cases, $failed failed"
    [ "$failed" = 0 ]
}
