#!/usr/bin/env bash
# The program ask on what its case files cannot hold: lines at and above the longest, carriage returns, a last line without a line feed, answers that do
# not wait for the end of the input, and streams that fail. Run from the repository's top, behind tests/build.sh.
set -u
asked=0 failed=0

# Compares what ask prints for what stands on standard input with the lines given, and that it says nothing on standard error.
expect() {
    asked=$((asked + 1))
    diff <(printf '%s\n' "${@:2}") <(target/bin/ask 2>&1) || { echo "ask: $1"; failed=1; }
}

digits() {
    head -c "$1" /dev/zero | tr '\0' 0
}

expect "a line of 262,144 characters" "refused 12 0" "accepted" < <(printf 'judge - '; digits 262136; printf '\nread -\n')
expect "a line of 262,145 characters" "? the line is too long" "accepted" < <(printf 'judge - '; digits 262137; printf '\nread -\n')
expect "the longest line with a carriage return" "refused 12 0" "accepted" < <(printf 'judge - '; digits 262136; printf '\r\nread -\n')
expect "a line of a million characters" "? the line is too long" "accepted" < <(digits 1000000; printf '\nread -\n')
expect "a sheet of 4,096 bytes is read" "refused 3 0" < <(printf 'read '; digits 8192; printf '\n')
expect "a sheet of 4,097 bytes is not" "refused 1 0" < <(printf 'read '; digits 8194; printf '\n')
expect "a payload of 4,096 bytes is read" "refused 3 4" < <(printf 'bundle 00100900'; digits 8192; printf ' 255\n')
expect "the longest payload is not" "refused 1 4" < <(printf 'bundle ffff0900'; digits 131070; printf ' 255\n')
expect "the longest payload, cut" "refused 18 0" < <(printf 'bundle ffff0900'; digits 131068; printf ' 255\n')
# f of worked sheet 10 leads from 0 to 1 and from 1 to 0: so many times, in the longest line that there is
walk='walk 020001000110010002000002000200000001000300000200030001000200030001010200040000020200050000010100060010 02000100 0 0 '
events() {
    head -c "$1" /dev/zero | sed 's/\x0/01/g'
}
expect "a walk of 131,007 events" "trail 131007 $(events 131007 | sed 's/0101/0100/g')" < <(printf '%s' "$walk"; events 131007; echo ' 131007 0')
expect "a walk of one event more than the trail has bytes" "refused 10 0" < <(printf '%s' "$walk"; events 131007; echo ' 131006 0')
expect "a carriage return at the end of a line" "accepted" "? not hexadecimal: word 2" "? not hexadecimal: word 2" "? empty line" \
    < <(printf 'read -\r\nread \r\nread -\r\r\n\r\n')
expect "a last line without a line feed" "accepted" "accepted" < <(printf 'read -\nread -')
expect "an empty last line" "accepted" "? empty line" < <(printf 'read -\n\n')
asked=$((asked + 1))
[ -z "$(target/bin/ask 2>&1 </dev/null)" ] || { echo "ask: no input has an answer"; failed=1; }

# an answer comes while the input stays open
coproc target/bin/ask
echo 'read -' >&"${COPROC[1]}"
answer=
read -r -t 20 answer <&"${COPROC[0]}"
[ "$answer" = "accepted" ] || { echo "ask: an answer waits for the end of the input"; failed=1; }
kill "$COPROC_PID" 2>/dev/null

# a read and a write that fail are said on standard error, and end the program, though more is asked
said=$(target/bin/ask 2>&1 <.)
[ "$said" = "ask: cannot read standard input" ] || { echo "ask: a read that fails: $said"; failed=1; }
said=$(yes 'read -' | timeout 20 target/bin/ask 2>&1 >/dev/full; echo "status ${PIPESTATUS[1]}")
[ "$said" = "ask: cannot write standard output
status 0" ] || { echo "ask: a write that fails: $said"; failed=1; }
echo "ask: $((asked + 3)) further tests$([ "$failed" -eq 0 ] || echo ", FAILED")"
exit "$failed"
