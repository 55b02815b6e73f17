#!/usr/bin/env bash
# The counts of DESIGN-PASS.md, taken at the top of a checkout: bash docs/DESIGN-PASS-counts.sh
count() { echo "$1: $(eval "$2" | wc -l)"; }

count "1 own enums" "grep -rnE '^(pub(\(crate\))? )?enum ' crates/*/src"
count "1 a flag with a value beside it" "grep -rnE '^    (pub )?(found|failed): bool,' crates/*/src"
count "1 numbers for refusals" \
    "grep -rnE 'Refused\(([0-9]+|number|u8)\)|check\([0-9]+,|refused\([a-z]+, [0-9]+\)|number: u8' crates/*/src"
count "1 a number, 0 for none" "grep -rnE '!= 0 \{\$' crates/job_parse/src | grep -E 'frame|contents|drifts'"
count "3 loops that are no for" "grep -rnE \"^\s*('[a-z]+: )?(while|loop) \" crates/*/src"
count "4 a byte widened by a function of ours" "grep -rnE '\bwide(_input)?\(' crates/*/src"
count "4 casts to wide types" "grep -rnE '\bas (usize|u16|u32|u64)\b' crates/*/src"
count "4 our own fill and copy" "grep -rnE '(^|[^._a-z])(fill|copy)\(' crates/*/src"
count "4 equality, conversion, printing by hand" \
    "grep -rnE 'fn (is_zero|same_lengths|is_open|phase_of|phase_word|cycle_of|words_of|complement|digit_count|put_number)\b' crates/*/src"
count "5 contracts that ask Passed" "grep -rnE '^\s*requires.* Passed ' crates/*/src"
count "5 facts asked in three contracts or more" \
    "grep -rhoE 'requires( [a-z_]+)? \{ \(*[A-Z][A-Za-z]+' crates/*/src | sed -E 's/.*\{ \(*//' | sort | uniq -c | awk '\$1>=3'"
count "5 lists with parameters that travel together" "grep -rnE '^ +counters: (&mut \[u8\]|usize),' crates/*/src"
count "6 arrays of fixed length" "grep -rnE '\[0u(8|16); |(: |: &|mut |-> )\[u(8|16); [0-9]+\]' crates/*/src"
count "7 tables of functions" "grep -rnE '\bdyn |: fn\(|\bBox<' crates/*/src"
count "8 lines of proofs" "find crates -path '*/proofs/*' -name '*.antt' -not -path '*/out/*' | xargs cat"
count "8 files of answers" "find crates -path '*/proofs/*' -name Answers.antt -not -path '*/out/*'"
