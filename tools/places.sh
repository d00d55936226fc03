#!/usr/bin/env bash
# Lists the places in src/ where an older form may stand, by the points of docs/DESIGN-PASS.md, with how many there are.
# Lines of comments don't count. Run it from the root of the repository.
set -uo pipefail
cd "$(dirname "$0")/.."

# the lines of src/ that match a pattern, without comments
lines() {
    grep -rnE --include='*.rt' "$1" crates/*/src | grep -vE '^[^:]+:[0-9]+:\s*(//|ghost use)' | sort -t: -k1,1 -k2,2n
}

# a heading, then the places and their number
point() {
    local found
    found=$(cat)
    printf '%s: %s\n' "$1" "$(grep -c . <<<"$found")"
    sed 's/^/    /' <<<"$found"
}

lines '^\s*(pub )?enum ' | point "1 enums"
lines '(let mut [a-z_]+ = (true|false);|\[[a-z]+\] = [01];)' | point "1 flags"
lines '(Ok|Err|Some|None)(\([a-z_()]*\))? => |let (Some|Ok)\(.*\) = .* else' | point "1 arms and else branches on Option and Result"
for name in $(lines '(fn|struct|enum|trait) [A-Za-z_]+' | grep -oE '(fn|struct|enum|trait) [A-Za-z_]+' | sort | uniq -d | cut -d' ' -f2); do
    case $name in
        # methods of a trait and constructors, of which each type has its own
        fmt | main | new | next | drop | from) ;;
        *) lines "(fn|struct|enum|trait) $name\b" ;;
    esac
done | point "2 names that stand more than once"
lines '\bfor [a-z_]+ in \(?[0-9a-z_]+\.\.|\bwhile ' | point "3 loops that count, and while"
lines 'fn (eq|ne|cmp|partial_cmp|clone|all_equal|all|number|place|code_of|character|all_different)\b|write!\(f?,? ?"refused' | point "4 equality, conversion and printing"
lines '^\s*(requires|ensures|ghost)' | grep -oE '\b(IsScheme|Codes|Points|PowerSums|marked|Fitting|Held|Zero) ' | sort | uniq -c | point "5 facts, by how often clauses name them"
awk 'FNR == 1 { n = 0 } /fn [a-z_]+(<.*>)?\($/ { head = FILENAME ":" FNR ":" $0; n = 0 } /^ +[a-z_]+: .*,$/ { n++ } /&(mut )?self,$/ { n++ }
    /^ *\)/ { if (n > 4 && head) print head " " n; head = ""; n = 0 }' $(find crates/*/src -name '*.rt' | sort) | point "5 functions of five or more parameters"
lines '(\[(u8|u32); [0-9A-Z]+\]|\[[0-9](u8|u32)?; [0-9A-Z]+\])|\b(places|degree): usize' | point "6 buffers of a fixed size"
lines '\bdyn |: fn\(|\bimpl Fn|\bmatch (step|mode|kind|state)\b' | point "7 switches on a step, and function values"
for crate in crates/*/; do
    printf '%s %s\n' "$(find "$crate/proofs" -name '*.antt' -exec cat {} + 2>/dev/null | wc -l)" "$(basename "$crate")"
done | point "8 lines of proofs, by crate"
