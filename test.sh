#!/bin/sh
# The gate: every folder of crates/ is listed in crates.txt; `rt ci` proves every listed crate, refuses every must-fail edit and runs every program, and none of
# the edits may be a bad one; then the library is built, and the tests of what stands around it are run (bindings/test.py). The last line printed is
# 'N passed, M failed' and counts both. Where the toolchain is not the one that the file TOOLCHAIN pins, a line at the beginning and one at the end say so.
set -eu
if [ "${1:-}" = --help ]; then
    echo "usage: ./test.sh"
    echo "The gate: proves everything that no earlier run on this machine passed, tries all must-fail edits, builds the library and runs all tests; its last line is 'N passed, M failed'."
    exit 0
fi
if [ $# -ne 0 ]; then
    echo "usage: ./test.sh [--help]" >&2
    exit 2
fi
cd "$(dirname "$0")"
result=$(mktemp -d)
trap 'rm -rf "$result"' EXIT

passed=0
failed=0
warning=
end() {
    [ -z "$warning" ] || echo "$warning"
    echo "$passed passed, $failed failed"
    if [ "$failed" -eq 0 ]; then exit 0; else exit 1; fi
}
fail() { # SENTENCE
    echo "FAILED $1"
    failed=$((failed + 1))
}
# Runs a command whose last line is 'N passed, M failed', shows what it prints, that line behind its name, and adds its counts.
part() { # NAME COMMAND..
    name=$1
    shift
    { "$@" 2>&1 && echo 0 >"$result/status" || echo $? >"$result/status"; } | tee "$result/log" | sed -u "s/^\([0-9]* passed, [0-9]* failed\)$/$name: \1/"
    counts=$(sed -n 's/^\([0-9]*\) passed, \([0-9]*\) failed$/\1 \2/p' "$result/log" | tail -n 1)
    counts=${counts:-0 0}
    passed=$((passed + ${counts% *}))
    failed=$((failed + ${counts#* }))
    if [ "$(cat "$result/status")" -ne 0 ] && [ "${counts#* }" -eq 0 ]; then fail "$name ended with status $(cat "$result/status")"; fi
    return "$(cat "$result/status")"
}

for tool in "rt rattle-kit, the Rattle toolchain" "python3 python3"; do
    command -v "${tool%% *}" >/dev/null || fail "${tool%% *} is missing: it comes with the package ${tool#* }"
done
if [ "$failed" -eq 0 ] && [ "$(rt version)" != "$(cat TOOLCHAIN)" ]; then
    warning="WARNING: another toolchain than the pinned one: rt version says '$(rt version)', TOOLCHAIN has '$(cat TOOLCHAIN)'"
    echo "$warning"
fi
for folder in crates/*/; do
    name=$(basename "$folder")
    grep -qE "^$name( staticlib)? *:" crates.txt || fail "crates/$name is not listed in crates.txt"
done
[ "$failed" -eq 0 ] || end

part 'rt ci' rt ci || { fail 'the library was not built, since something is not proved'; end; }
# An edit that does not fit the text any more counts for nothing, and the toolchain alone would pass it.
if grep '^rt: ok' "$result/log" | grep -q ', [1-9][0-9]* bad'; then fail 'a must-fail edit does not fit the text'; fi
tools/build_library.sh || { fail 'the library was not built'; end; }
part 'library, bindings and command' python3 bindings/test.py || true
end
