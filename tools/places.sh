#!/usr/bin/env bash
# Counts the places of each point of docs/DESIGN-PASS.md in src/, or lists them (-l). Run it in the repository; a copy in tools/ of another state counts that.
cd "$(dirname "$0")/.." || exit 1
[ "${1:-}" = -l ] && list=1
src() { grep -nE "$1" crates/*/src/*.rt | grep -vE '^[^:]*:[0-9]+: *//'; }
show() { # POINT LINES
    echo "$1: $(printf '%s' "$2" | grep -c .)"
    [ -z "${list:-}" ] || [ -z "$2" ] || printf '%s\n' "$2" | sed 's/^/    /'
}
facts() { # clauses of requires that three contracts or more have
    grep -hoE '^ +requires [^{]*\{.*\}$' crates/*/src/*.rt | sed -E 's/^ +requires [^{]*//' | sort | uniq -c | awk '$1 >= 3'
}
show "1a enums of an answer or a refusal" "$(src 'Refused \{ number')"
show "1b structs with a flag and its value" "$(src '^ +(pub )?(found|dead|ok|done|whole|more): bool,$')"
show "1c numbers for refusals, kinds and states" "$(src 'number: u8,|fn ([a-z]*_)?(fault|cause)\(.*\) -> u8$|match kind \{$|^const (NOTHING|MORE|JOINED): usize = [0-2];')"
show "1d a value that stands for none" "$(src '^(pub )?const [A-Z_]+: u8 = 255;|^    MOST_(TERMS|CODES)$|^    Nothing,$')"
show "2 functions of one shape" "$(src 'fn (say|write_(sorts|symbols|terms|literals)|unite_half|strike_half|find_with|findat_with|find_into|findat_into|put_cells|put_hex|join_sides|mark_sides|unforced_row|unforced_table|not_(read|found|found_at|sized)|[a-z]+_question)[(<]')"
show "3 loops that count by hand" "$(src '^ +(while|loop) ?')"
show "4 equality, order, copying, conversion by hand" "$(src 'fn (wide|lesser|larger|smaller|minus|same_key|same|eight|clamped|copy|put_number|hex_digit|digit|is_same|moved_inside|as_decided)[(<]')"
show "5a facts in three contracts or more" "$(facts)"
show "5b parts of one value passed one by one" "$(src '^ +(labels|masks|marks|symbol|arg0|arg1|equal|left|right): &|fn [a-z_]+.*(labels|masks|marks): &')"
show "6 arrays side by side, or with a count" "$(src '^ +(pub )?[a-z0-9_]+: \[(u8|u16|u64|usize); MOST_[A-Z]+\],$|(k|n|many|len): usize,? *\)?$')"
show "7 a switch on which step to run" "$(src 'if same\(verb, ')"
echo "8 answers in proofs/*/Answers.antt: $(cat $(find crates -name Answers.antt -not -path '*/out/*') | grep -c '^pub ')"
