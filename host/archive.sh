#!/bin/sh
# The archive of the C functions, target/staticlib/libcapi.a, from the root of the repository or elsewhere: proves the crate capi_c and
# those below it, compiles it, and puts what `rt lib` made under the name that C and Rust link.
set -e
cd "$(dirname "$0")/.."
made=crates/capi_c/out/libcapi_c.a
archive=target/staticlib/libcapi.a
(cd crates/capi_c && rt lib)
mkdir -p target/staticlib
cmp -s "$made" "$archive" || cp "$made" "$archive"
