#!/bin/sh
# Counts lines of crates/*/src that may be of an older form, at a commit (HEAD if none is given); docs/DESIGN-PASS.md says what they are.
#   sh tools/forms.sh [-l] [COMMIT]        with -l each line is printed
list=
[ "$1" = -l ] && { list=yes; shift; }
commit=${1:-HEAD}

count() {
    lines=$(git grep -nE "$2" "$commit" -- 'crates/*/src/*.rt' | sed 's/^[^:]*://')
    printf '%s\t%s\n' "$1" "$(printf '%s' "$lines" | grep -c .)"
    if [ -n "$list" ] && [ -n "$lines" ]; then printf '%s\n' "$lines" | sed 's/^/\t/'; fi
}

count '1 fields that are flags' '^\s+(pub )?\w+: bool,$'
count '1 flags as results' 'Result<bool|Option<bool'
count '1 results that are a byte' '\-> u8$'
count '1 numbers for kinds' '\btag: u64|match (tag|command\[0\])|let tag = |const \w+: u64 = [0-9];'
count '1 results matched only to be handed on' '(Err|None)(\(\w*\))? => (return )?Err\(|Err\(\w+\) => Err|Ok\(\w+\) => Ok\(|Some\(\w+\) => \w+,$|=> unreachable'
count '1 none by a branch of its own' '^\s+None$|else \{ None \}'
count '3 loops over numbers, or by hand' "^\s*('\w+: )?while |^\s*for .* in .*\.\."
count '4 the larger, the smaller, and elements copied' 'if \w+ < \w+ \{ \w+ \} else \{ \w+ \}|^\s+\w+\[[^]]+\] = \w+\[[^]]+\];'
count '4 conversions by as, but to usize' ' as (u8|u32|u64)\b'
count '5 requires that a memory, or a region, is held' 'requires held \{'
count '5 requires that parts lie within bytes' 'requires \w* ?\{ (EntriesIn|CommandIn|TextIn|PerhapsIn|MessageIn|EventIn|EntryIn) |requires .*\{ at ≤ length b.now'
count '5 requires that a log is so long, or not longer' 'requires .*(80 \* len ≤ length region|len ≤ 2 \^ 32)'
count '5 bytes and a place in them' '(out|events): &mut \[u8\], at: usize|b: &\[u8\], at: usize|line: &\[u8\], at: usize|^\s+at: usize,$'
count '6 places, lengths and counts beside what they are of' '\b(len|count|at): (usize|u64),$|region: &\[u64\], len: usize|b: &\[u8\], (\w+: \w+, )*(command|entries|event|text|name): '
count '7 a value that says which call is made' 'enum Sent|Sent::|wanted|asks_unless|look: bool|put: bool|renew: bool'
