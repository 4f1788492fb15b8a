#!/bin/sh
# Everything of the host in one run, from the root of the repository or elsewhere: the archive, the C test, the Rust tests, the
# recorded answers, the differential runs, the programs roadfinch and sessions, the script ./roadfinch, and the lists of calls for the
# programs. Each step ends in a line 'host NAME: passed' or 'host NAME: failed'; the exit status is 1 where one failed. DIFF_TIMES and
# DIFF_SEED lengthen and vary the differential runs, LIST_CALLS and LIST_SEED the lists. The programs that `rt ci` left are taken as
# they are.
set -u
host=$(cd "$(dirname "$0")" && pwd)
root=$(dirname "$host")
failed=0

step() {
    name=$1
    shift
    if "$@"; then
        echo "host $name: passed"
    else
        echo "host $name: failed"
        failed=1
    fi
}

programs() {
    "$root/tools/program" roadfinch && "$root/tools/program" sessions
}

c_test() {
    mkdir -p "$host/target" &&
        "${CC:-cc}" -std=c11 -O2 -Wall -Wextra -Werror -I "$root/include" \
            "$host/ctest/ctest.c" "$root/target/staticlib/libcapi.a" -o "$host/target/ctest" &&
        "$host/target/ctest"
}

cargo_here() {
    (cd "$host" && cargo "$@")
}

step archive "$host/archive.sh"
step 'C test' c_test
step 'build' cargo_here build --release --offline
step 'Rust tests' cargo_here test --release --offline --quiet
step 'recorded answers' "$host/target/release/record" --check
step 'differential runs' "$host/target/release/diff" "${DIFF_TIMES:-1}" "${DIFF_SEED:-1}"
step 'programs' programs
step 'script' "$host/script.sh"
step 'lists of calls' "$host/target/release/lists" "${LIST_CALLS:-100000}" "${LIST_SEED:-1}"
exit $failed
