#!/bin/sh
# Roadfinch beside other libraries that write sets: bytes, times, and what readers make of damaged bytes. Writes docs/PEERS.md. No part of
# the gate. The archive has to be built (host/archive.sh). Each library is taken where its Debian package is installed; for all:
#   apt-get install libroaring-dev libstreamvbyte-dev libsdsl-dev liblmdb-dev libsqlite3-dev
# Where one is missing, its column is missing, and nothing else. CXX names another compiler than g++, CXXFLAGS gives it more flags, such as -I and
# -L of libraries that were built otherwise.
set -eu
here=$(cd "$(dirname "$0")" && pwd)
root=$(cd "$here/../.." && pwd)
made=$root/host/target
archive=$root/target/staticlib/libcapi.a
compiler=${CXX:-g++}
more=${CXXFLAGS:-}

if [ ! -f "$archive" ]; then
    echo "peers: target/staticlib/libcapi.a is missing: run host/archive.sh first" >&2
    exit 1
fi

sources="$here/main.cpp $here/ours.cpp $here/leb128.cpp"
libraries=
packages=

# A peer: its file, the header that it includes, the package that has it, and what it is linked with.
peer() {
    # shellcheck disable=SC2086
    if echo "#include <$2>" | "$compiler" -std=c++17 $more -E -x c++ - >/dev/null 2>&1; then
        sources="$sources $here/$1.cpp"
        libraries="$libraries $4"
        version=$(dpkg-query -W -f '${Version}' "$3" 2>/dev/null || echo unknown)
        packages="$packages $3=$version"
    else
        echo "peers: $3 is not installed: $1 is left out" >&2
        packages="$packages $3="
    fi
}

peer roaring roaring/roaring.h libroaring-dev -lroaring
peer streamvbyte streamvbytedelta.h libstreamvbyte-dev -lstreamvbyte
peer elias sdsl/coder_elias_delta.hpp libsdsl-dev -lsdsl
peer lmdb lmdb.h liblmdb-dev -llmdb
peer sqlite sqlite3.h libsqlite3-dev -lsqlite3

mkdir -p "$made"
# Lists of words, which are to be split.
# shellcheck disable=SC2086
"$compiler" -std=c++17 -O2 -DNDEBUG -Wall -Wextra $more -I "$root/include" $sources "$archive" $libraries -o "$made/peers"
# shellcheck disable=SC2086
"$made/peers" "$root/docs/PEERS.md" $packages
