#!/usr/bin/env bash
# Lists the places that the eight points of docs/DESIGN-PASS.md ask about, by text alone: one line each, and how many there are.
# What is listed is a place to look at; docs/DESIGN-PASS.md says which of them are places to change. SHORT=1 prints the numbers alone.
set -uo pipefail
cd "$(dirname "$0")/.."
list() {
    local name=$1
    shift
    local found
    found=$("$@" | sort)
    echo "== $name: $(printf '%s' "$found" | grep -c .)"
    [ "${SHORT:-}" ] || printf '%s\n' "$found" | sed 's/^/   /'
}
src() { grep -rnE "$1" crates/*/src --include=*.rt; }
list '1 numbers for kinds and refusals, flags for kinds' src '\b(number|fault|code): u(8|16|32)\b|fn (number_of|fault_number|wiring_of)\b|\bby_leaps\b|extern "C".*|-> u32$|Result<Option<'
list '2 constants of one meaning' src '^const (NO_PINS|NO_MODE|NO_PULSE|BLANK|PINS|PLACES|RAM|LINE|IMAGE)\b'
list '2 functions of one name or differing in a digit' bash -c "grep -rnoE 'fn [a-z0-9_]+' crates/*/src --include=*.rt | sed -E 's/^([^:]*):[0-9]*:fn (.*)/\2 \1/' | awk '{n=\$1; gsub(/[0-9]+/,\"#\",n); k[n]=k[n] \" \" \$2 \":\" \$1; c[n]++} END {for (n in c) if (c[n]>1) print n k[n]}'"
list '2 one body for two kinds of counters, requests or loads' src 'fn (is_int[01]|first_(high|low)|is_(buzo|pwmo)|(next|run)_prescaler|(tick|leap)_run|fewer_ticks|quiet_mark|calculate|load|compare|play_(steady|wave|pulses|two|all)|(word|double|quad)_at|add_decimal|put_decimal)\b'
list '3 loops' src '^ *(while|loop)\b|^ *for .* in .*\.\.'
list '3 counts by hand in loops' src '^ *[a-z_.]+ (\+|/|-)= ?[0-9]+;|saturating_add\(1\)'
list '4 equality by hand' src 'is_like|fn numbers\b|fn is_same'
list '4 conversions by hand' src '(256|65536|4294967296) \*|[/%] 256\b|/ 256|fn (of|psw|set_psw|wiring_of|letter|code|with_bit|bit_if)\('
list '4 printing by hand' src 'fn (put|add)_(byte|bytes|hex|decimal|start|tick|mode|bit|bits|pins|variable|variables|header|line|lines|outcome)\b|fn (hex_digit|write_text|text)\('
list '5 clauses that stand three times or more' bash -c "grep -rhoE '(requires|ensures) [a-z_]*.*\{ .* \}' crates/*/src --include=*.rt | sed -E 's/^(requires|ensures) ?[a-z_]* /\1 /' | sort | uniq -c | awk '\$1>=3'"
list '5 parameters that travel together' src 'image: &\[u8\], (host: u16|pc: u16)|^ *host: u16,|pins: &mut \[Stretch|modes: &mut \[Stretch|description: &\[u8\]'
list '6 buffers with a length or a place beside' src 'count: usize|at: usize|\[[A-Za-z_0-9:()]+; (TEXT|PULSES|PLACES|64)\]'
list '6 lists searched by hand' src 'let mut (low|high) ='
list '7 switches on which step to run' src 'Way::(Ticks|Leaps) =>|if by_leaps|Wiring::[A-Za-z]+ => play'
list '8 files of answers, invariants and lemmas' find crates/*/proofs -name '*.antt' ! -name Lib.antt
echo "== 8 lines of answers, invariants and lemmas: $(find crates/*/proofs -name '*.antt' ! -name Lib.antt -print0 | xargs -0 cat | wc -l)"
