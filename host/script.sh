#!/bin/sh
# The script ./roadfinch as README has it: the first session is run and answered as it stands there, each command of the demo has an
# answer that is no error, and the help is given; and a set whose record takes the most room is written and read within the stack that README
# calls enough. The program has to be built.
set -e
root=$(cd "$(dirname "$0")/.." && pwd)
made=$root/host/target/session
rm -rf "$made"
mkdir -p "$made"

# What stands in README between the script and END, and what is answered below it, each without its indent.
awk -v to="$made" '
    /^    \$ \.\/roadfinch <</ { part = "asked"; next }
    part == "asked" && /^    END$/ { part = "answered"; next }
    part != "" && !/^    / { exit }
    part != "" { print substr($0, 5) > (to "/" part) }
' "$root/README.md"
"$root/roadfinch" <"$made/asked" >"$made/given"
cmp "$made/answered" "$made/given"

"$root/roadfinch" demo >"$made/demo"
asked=$(grep -c '^[a-z]' "$root/docs/demo.txt")
answered=$(grep -A 1 '^> ' "$made/demo" | grep -c '^  \(ok\|refused\)')
[ "$asked" -gt 0 ] && [ "$asked" -eq "$answered" ]

"$root/roadfinch" help >"$made/help"
grep -q '^ok commands' "$made/help"

# 38,000 of 40,000 ids, of which the absent ones are listed; the payload is longer than 2,048 bytes, so that the ids read are kept.
within() {
    (ulimit -s 5400 && "$root/crates/roadfinch/out/roadfinch")
}
awk 'BEGIN { printf "encode 40000"; for (i = 0; i < 40000; i++) if (i % 20) printf " %d", i; print "" }' >"$made/large"
within <"$made/large" >"$made/written"
sed 's/^ok /decode 40000 /' "$made/written" | within >"$made/read"
sed 's/^encode 40000//' "$made/large" >"$made/sent"
sed 's/^ok [0-9]*://' "$made/read" | cmp "$made/sent" -
