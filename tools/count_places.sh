#!/bin/sh
# Counts the places in src/ that docs/DESIGN-PASS.md speaks of, in the checkout whose top is the current folder.
# With -v each place is printed below its count. A line that is counted is a place to look at, not a verdict.
code=$(ls crates/*/src/*.rt | grep -v '/tests\.rt$')
all=$(ls crates/*/src/*.rt)
show=$1

count() {
    what=$1
    shift
    found=$(grep -nE "$@" | grep -vE ':[0-9]+: *//')
    printf '%-62s %s\n' "$what" "$(printf '%s' "$found" | grep -c .)"
    if [ "$show" = -v ]; then printf '%s\n' "$found" | sed '/./s/^/    /'; fi
}

# 1: answers and kinds
count '1a enums of the repository'              '^(pub(\(crate\))? )?enum ' $code
count '1b numbers for kinds, sides and questions' '\b(question|code|kind|kind_byte|side|side_byte): (u8|usize)|let (kind|side)(_byte)? = (item|usize|kind|side|u8)|fn byte\(|\(question, item\)|is_of\(item, [0-9]' $code
count '1c answers turned by a match or a let-else' 'let (Ok|Some)\(.*\) = .*else|^ *(None|Err\(_\)) => (return )?(None|Err\()|Ok\(_\) => (None|show)|Some\([a-z]+\) => (Some|Ok)\(' $code
# 2: functions whose body differs from another one in a type, a name or a constant
count '2a the width and the most of a layout'   'fn (width|most)\(' $code
count '2b a table fault told again, and refusals written out' 'TableFault::(Count|Memory|Record \{ number \}) => [A-Z]|let \(question, item\)|^ *(Some\(|[A-Za-z:]+ \{ .*=> )?Refusal \{$|=> Refusal \{$' $code
count '2c zero units and zero sets written out' 'groups: GroupSet \{ bits: 0 \}|^ *GroupSet \{ bits: 0 \}$' $all
# 3: loops
count '3a loops over a range of numbers'        '^ *for [a-z_]+ in .*[^[]\.\.' $all
count '3b counters and rests kept by hand'      '(count|left|rest|size|filled|len) [-+*/%]= |let mut (left|count|rest|size|filled)\b' $code
count '3c elements by a number'                 '\b(units|slots|ways|sets|rows|bytes|choices|chosen|item|u)\[[a-z0-9]' $code
count '3d loops that end early with false or none' '^ *return (false|None|Some\(.*\));$' $code
# 4: what can be derived or has a trait
count '4a comparisons by hand'                  'impl .*(PartialEq|Same|Ord)\b.* for|\.bits [!=]= [a-z]|fn same\(' $code
count '4b conversions by hand'                  'fn (byte|byte_of|value_of|from_bytes|to_bytes|opposite|on_side|refusal_on)\b|as (u8|u32|u64|usize)\b|/ (256|65536|16777216)' $code
count '4c errors without Display, and texts in their place' 'anyhow!\(|fn show_(range|placement|parking|links)\(' $code
# 5: facts and parameters that come together
count '5a the fact that the ranges are one'     'requires .*OneRange' $code
count '5b the fact that a record has 64 bytes'  'requires .*length item\.now ≡ 64|ensures len .*≡ 64' $code
count '5c the fact that all questions are answered' 'requires .*(None ≡ first_no|Holds )' $code
count '5d the meaning of a table, a rule or two systems spelled out' 'net_of self\.now|meant L\.System\.means' $code
count '5e an input with a side'                 'bytes: &\[u8\], (kind: Kind, )?side: Side|^ *side: Side,$' $code
# 6: buffers
count '6 lengths and counts beside a buffer'    '^ *(pub(\(crate\))? )?(len|units|count): usize,|filled' $code
# 7: which step to run
count '7 choices of what to run by a side'      'Side::(Left|Right) => self\.' $code
