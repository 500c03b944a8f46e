#!/bin/sh
# Prints the places of src/ that docs/DESIGN-PASS.md counts, by its points, and how many there are of each.
# Usage: tools/forms.sh [-c]   (-c: the counts alone)
cd "$(dirname "$0")/.." || exit 1
only_counts=$1

# count LABEL PATTERN: the lines of the crates' sources that fit the pattern
count() {
    found=$(grep -nE -- "$2" crates/*/src/*.rt | grep -v 'ghost use')
    printf '%s: %s\n' "$1" "$(printf '%s' "$found" | grep -c .)"
    [ "$only_counts" ] || printf '%s\n' "$found" | sed 's/^/    /'
}

count '1a results and options taken apart by hand' '^ *let (Some|Ok)\(.*\) = .* else|^ *Err\([a-zA-Z:_]+\) =>|Ok\(\(\)\) =>'
count '1b flags beside a value' '[a-z_]+: bool[,)]?'
count '1c numbers for refusals' 'fn refusal\(.* u8|Result<.*, u(8|16|32)>'
count '2a twin functions' 'fn (extreme_place|tightest|has|key_at|run_keys|below_zero|from_zero|read_places|read_theta|refusal|main)\('
count '2b twin types' 'struct (Interval|KeyRange|LineReader|Window|Plan) '
count '3 loops' '^ *(for|while|loop) '
count '4a copied types without Debug or ==' 'derive\(Clone, Copy(, Debug)?\)'
count '4b conversions by hand' ' as (u8|u16|u32|u64|usize|i32)|fn (fault_of|below_zero|from_zero)|impl From'
count '4c ranges and lengths compared by hand' '<=? .* &&.*<|\|\| .* [<>]|len\(\) (==|>) 0'
count '4d text written by hand' 'fn (word|write_[a-z]+)\('
count '5a clauses that name private fields' '(requires|ensures).*(now|old|new|result)\.(len|bytes|ranges|intervals|counts|session|lines|output|study|tally|setting)'
count '5b facts at a bool or a Result' 'Decides|is_ok result ≡'
count '5c facts and parameters that travel together' 'place < 16|left rest|Proper (result|low|run)|rest: Option<&\[u8\]>|to: &mut String, line: u32|opened: bool,'
count '6 arrays of a fixed size, lengths beside them' '\[[^]]*; [0-9A-Z_]+\]|^ *len: usize'
count '7 tables of functions' 'dyn |: fn\(|&fn|Box<'
printf '8 proof files of functions, and of lemmas: %s, %s; lines: %s\n' \
    "$(find crates/*/proofs -mindepth 2 -name '*.antt' | wc -l)" "$(find crates/*/proofs -maxdepth 1 -name '*.antt' | wc -l)" \
    "$(find crates/*/proofs -name '*.antt' -exec cat {} + | wc -l)"
