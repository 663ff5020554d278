#!/usr/bin/env bash
# Runs the find program on every sheet of examples/ and compares all that it prints with the output beside the sheet; a sheet without an output, or an
# output without a sheet, is a fault. Then a read and a write that fail. Run from the repository's top, behind tests/build.sh.
set -u
shopt -s nullglob
compared=0 failed=0
printed=$(mktemp) || exit 1
trap 'rm -f "$printed"' EXIT
for file in examples/*.sheet examples/*.out; do
    stem=${file%.*}
    if [ ! -f "$stem.sheet" ] || [ ! -f "$stem.out" ]; then
        echo "examples: $file stands alone"
        failed=1
    elif [ "$file" = "$stem.sheet" ]; then
        compared=$((compared + 1))
        target/bin/find <"$file" >"$printed" 2>&1 || { echo "examples: $file: find ended with status $?"; failed=1; }
        diff "$stem.out" "$printed" || { echo "examples: $file: find prints something else"; failed=1; }
    fi
done
# a read that fails, and a write that fails: one line on standard error, and nothing on standard output
for way in "read standard input:.:$printed" "write standard output:examples/printed.sheet:/dev/full"; do
    IFS=: read -r what from to <<<"$way"
    said=$(target/bin/find 2>&1 <"$from" >"$to")
    if [ "$said" != "find: cannot $what" ] || { [ -f "$to" ] && [ -s "$to" ]; }; then
        echo "examples: find that cannot $what says: $said"
        failed=1
    fi
done
[ "$compared" -gt 0 ] || failed=1
echo "examples: $compared sheets compared$([ "$failed" -eq 0 ] || echo ", FAILED")"
exit "$failed"
