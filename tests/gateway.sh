#!/usr/bin/env bash
# Builds the C and C++ programs of the gateway on the archive of this tree, and compares what they print: the courier, which asks sizes and then find_at,
# on every sheet of examples/ with what the find program's expected output says; every find, sizes, findat and judge question of tests/cases, and the guard's
# own calls, with guard bytes around every buffer; and the four functions from C++. Run from the repository's top, behind tests/build.sh.
set -u
for source in crates/gateway/c/courier.c tests/gateway/guard.c tests/gateway/cases.c; do
    cc -Wall -Wextra -O2 -Icrates/gateway/c -o "target/$(basename "$source" .c)" "$source" target/staticlib/libgateway.a || exit 1
done
c++ -Wall -Wextra -O2 -Icrates/gateway/c -o target/header tests/gateway/header.cpp target/staticlib/libgateway.a || exit 1
failed=0
# what the courier printed behind a word, and what the find program says in its lines of these kinds, one after the other
printed() { printf '%s\n' "$got" | sed -n "s/^$1 //p"; }
said() { sed -nE "s/^($1) [0-9]+ //p" "$want" | tr '\n' ' ' | sed 's/ $//'; }
same() { [ "$2" = "$3" ] || { echo "courier: $sheet: $1 $2, not $3"; failed=1; }; }
for sheet in examples/*.sheet; do
    want=${sheet%.sheet}.out
    got=$(target/courier "$sheet")
    first=$(printf '%s\n' "$got" | head -n 1)
    same "first line" "$first" "$(head -n 1 "$want")"
    case "$first" in
    found*)
        same sizes "$(printed sizes)" "$(said field)"
        same tables "$(printed tables)" "$(said 'field|name')"
        same "what was found, judge" "$(printed judge)" 0
        ;;
    esac
done
target/guard examples/*.sheet || failed=1
target/cases tests/cases/*.txt || failed=1
target/header || failed=1
[ "$failed" -eq 0 ] && echo "gateway: the C and C++ programs agree"
exit "$failed"
