#!/usr/bin/env bash
# Writes from tests/cases/*.txt what the tests run on: the questions and answers of the ask program (crates/ask/stdin, stdout), the sheets of examples/
# with what the find program prints for each, and the find program's own test (crates/find/stdin, stdout: the sheet `printed`). With --check it leaves
# the tree alone, names each file that is not what it would write, is missing or is left over, and fails if there is one.
#
# A line of a case file is empty, a comment (#), or `question = answer` as in docs/FORMAT.md ("Asking line by line"), split at its last ` = `.
# A line `program SHEET = LINES` is for the find program, | standing for a line feed: the comment right above it, `# NAME: reason`, names its files
# examples/NAME.sheet and examples/NAME.out; without one it is FILE_1, FILE_2, .. after its case file.
set -u
export LC_ALL=C
shopt -s nullglob
cd "$(dirname "$0")/.." || exit 1
case "$*" in
'' | --check) ;;
*) echo "usage: tests/cases.sh [--check]"; exit 2 ;;
esac
made=$(mktemp -d) || exit 1
trap 'rm -rf "$made"' EXIT
mkdir -p "$made/crates/ask" "$made/crates/find" "$made/examples" || exit 1
failed=0

fault() {
    echo "cases: $*"
    failed=1
}

# The bytes of a hexadecimal word; - is none.
bytes() {
    [ "$1" = - ] || printf "$(sed 's/../\\x&/g' <<<"$1")"
}

# NAME SHEET LINES of each program line.
programs() {
    awk '
        FNR == 1 { file = FILENAME; gsub(/.*\/|\.txt$/, "", file); count = 0; above = "" }
        /^program / {
            count++
            name = above ~ /^# [a-z0-9_]+: / ? substr(above, 3, index(above, ":") - 3) : file "_" count
            print name, $2, substr($0, index($0, " = ") + 3)
        }
        { above = $0 }' tests/cases/*.txt
}

files=(tests/cases/*.txt)
[ "${#files[@]}" -gt 0 ] || { fault "tests/cases has no case file"; exit 1; }
while IFS=: read -r file number _; do
    fault "$file:$number is no question with its answer"
done < <(grep -n -v -e '^#' -e '^$' -e ' = ' "${files[@]}" /dev/null)

sed -e '/^#/d' -e '/^$/d' -e '/^program /d' "${files[@]}" >"$made/asked" || exit 1
sed 's/\(.*\) = .*/\1/' "$made/asked" >"$made/crates/ask/stdin" || exit 1
sed 's/.* = //' "$made/asked" >"$made/crates/ask/stdout" || exit 1
[ -s "$made/asked" ] || fault "tests/cases has no question"

programs >"$made/programs" || exit 1
while read -r name sheet lines; do
    example=$made/examples/$name
    [[ $sheet =~ ^(-|([0-9a-f][0-9a-f])+)$ ]] || fault "$name: the sheet is not in hexadecimal"
    [ ! -e "$example.sheet" ] || fault "two program lines are named $name"
    bytes "$sheet" >"$example.sheet"
    printf '%s' "$lines" | tr '|' '\n' >"$example.out"
done <"$made/programs"
if [ -e "$made/examples/printed.sheet" ]; then
    cp "$made/examples/printed.sheet" "$made/crates/find/stdin" && cp "$made/examples/printed.out" "$made/crates/find/stdout" || exit 1
else
    fault "no program line is named printed"
fi
[ "$failed" -eq 0 ] || exit 1

written=(crates/ask/stdin crates/ask/stdout crates/find/stdin crates/find/stdout)
for file in "$made"/examples/*; do
    written+=("${file#"$made/"}")
done
if [ "$*" = --check ]; then
    for file in "${written[@]}"; do
        if [ ! -e "$file" ]; then
            fault "$file is missing"
        elif ! cmp -s "$made/$file" "$file"; then
            fault "$file is not what the case files say"
        fi
    done
    for file in examples/*; do
        [ -e "$made/$file" ] || fault "$file is left over: no program line has its name"
    done
    [ "$failed" -eq 0 ] || echo "cases: tests/cases.sh writes the files anew"
else
    rm -f examples/*
    for file in "${written[@]}"; do
        mkdir -p "${file%/*}" && cp "$made/$file" "$file" || exit 1
    done
fi
echo "cases: $(wc -l <"$made/asked") questions, $(wc -l <"$made/programs") programs$([ "$failed" -eq 0 ] || echo ", FAILED")"
exit "$failed"
