#!/bin/sh
# Counts, in the checkout in which it runs, the places that a design pass looks at. Each line: the point, the command's count.
S() { git ls-files "crates/*/src/*.rt" "crates/*/src/**/*.rt" | sort -u; }
echo "1 enums:                       $(S | xargs grep -hE '^ *(pub(\(crate\))? )?enum ' | wc -l)"
echo "1 flags or numbers for none:   $(S | xargs grep -hE 'weighs: bool|is_clear|Settled|plus one|0 where there is none|mark: usize|mark: 0|number > 0|number - 1|rule: \[usize; 48\]|place: \[usize; 48\]|fn code_numbers|fn number_of\(res' | wc -l)"
echo "2 pairs of duplicates:         $(sh tools/duplicates.sh 2>/dev/null | grep -cE "^D[0-9]+ ")"
echo "2 names declared twice:        $(S | xargs grep -hoE 'fn [a-z_0-9]+' | sort | uniq -d | wc -l)"
echo "3 loops over a range or while: $(S | xargs grep -hE '^ *(for [a-z_]+ in \(?[0-9a-zA-Z_.]+(\(.*\))?\.\.|while )' | wc -l)"
echo "4 conversions and comparisons: $(S | xargs grep -hE 'fn (number|numbered|named|of_number|of_code|same|same_code|are_same|at_line|or_zero|numbers|numbers_of|widened|code_of|cost|answer_of|number_of|code_numbers|at|is_set|is_live)\b' | wc -l)"
echo "5 shape and rules together:    $(S | xargs cat | tr -d '\n' | grep -oE 'shape: &(.a )?Shape, *rules: &|first_rules: &' | wc -l)"
echo "6 fixed arrays:                $(S | xargs grep -hE ': \[[A-Za-z0-9<>]+; [0-9]+\]' | wc -l)"
echo "7 switches:                    $(S | xargs grep -hE 'weighs|match (side|named)' | wc -l)"
echo "8 answers:                     $(git ls-files "crates/*/proofs/*.antt" | xargs grep -hE '^pub .* : goal\.' | wc -l)"
echo "8 lines of proofs:             $(git ls-files "crates/*/proofs/*.antt" | xargs cat | wc -l)"
