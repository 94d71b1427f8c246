#!/usr/bin/env bash
# Counts the lines in which a place of each point of the design pass can stand (docs/DESIGN-PASS.md). With a point's number
# as its argument it prints the lines of that point. Which of them are places is said on the page.
set -uo pipefail
cd "$(dirname "${BASH_SOURCE[0]}")/.." || exit 1

wanted=${1:-}

# point, what is looked for, and the command that finds its lines
count() {
    local point=$1 what=$2
    shift 2
    local found
    found=$("$@" || true)
    if [[ -z $wanted ]]; then
        printf '%-4s %4d  %s\n' "$point" "$(printf '%s' "$found" | grep -c '')" "$what"
    elif [[ $point == "$wanted" ]]; then
        printf '%s\n' "$found"
    fi
}

in_src() { grep -rnE "$1" crates/*/src --include='*.rt'; }
in_code() { grep -rnE "$1" crates/*/src --include='*.rt' | grep -vE '^crates/[a-z_]*tests/'; }

# loops over a range whose body picks an element by the loop's own number
loops_by_index() {
    awk 'match($0, /^ *('"'"'[a-z]+: )?for [a-z_]+ in [^{]*\.\./) { split($0, w, " in "); n = w[1]; sub(/.*for /, "", n); v = n; line = FILENAME ":" FNR ":" $0; depth = 12 }
         depth > 0 { if (v != "" && $0 ~ ("\\[" v "( as usize)?\\]")) { print line; v = ""; depth = 0 } depth-- }' crates/*/src/*.rt
}

count 1a "a fault answered or kept as an Option" in_src 'Option<[A-Za-z]*Fault>'
count 1b "a flag or a number with a value beside it" in_src '^ *(pub(\(crate\))? )?(formatted|number|kind|way): (bool|u8|u16),'
count 1c "functions that answer a byte" in_src '\) -> u8'
count 1d "enums" in_src '^ *(pub(\(crate\))? )?enum '
count 1e "numbers of a kind, compared or matched" in_src '(kind|number) == [0-9]|match (kind|number) '
count 1f "early ends that hand a fault on by hand" in_code 'return Some\(fault\);|return Err\(Refusal::NoSuchBlock\);'
count 2a "the measures of the flash without blocks, written out" in_src 'blocks: 0,'
count 2b "methods that tell a refusal's or a fault's number" in_src 'fn number\(self\)'
count 2c "functions that carry out one kind of record" in_src 'fn carry_[a-z]+'
count 2d "stretches of memory filled with one byte" in_code '\.fill\(|fn (clear|fill|wipe)\('
count 2e "the first tests of a call, written out" in_code 'if !self\.is_ready\(\)|block\.0 as u16 >= '
count 3a "loops" in_src "^ *('[a-z]+: )?(for|while|loop)\b"
count 3b "loops over a range that pick by the range's number" loops_by_index
count 3c "bytes picked one by one" in_src '\[at( \+ [0-9])?\],|\[rest\[0\]|\[memory\[at'
count 3d "counters moved by hand" in_code '^ *[a-z]+ [+-]= 1;'
count 4a "conversions, comparisons and printing in functions of their own" in_src 'fn (number|from_[a-z]+|to_[a-z]+|kind_for|letter|word|way|way_number|end_number|header_bytes|same_bytes|print_[a-z]+)\b'
count 4b "records of zeros, written out" in_code '(erases|worn|live|large|number|floor): 0,'
count 4c "fields copied one by one" in_src '[a-z_]+: [a-z]+\.(floor|erases|worn|erased|compactions|merges),?$'
count 4d "records added field by field" in_src '\+= [a-z]+\.[a-z]+;'
count 5a "clauses that a work area is unchanged past a block" in_src 'ensures beyond'
count 5b "the state of a store, taken together from flag, maps and flash" in_src 'state_in [a-z]+\.?[a-z]*\.formatted'
count 5c "a flash and the maps over it as two parameters" in_code '^ *maps: &(mut )?Maps,|flash: &(mut )?F, maps: &'
count 5d "facts about a record of slots" in_src 'Shaped '
count 5e "facts that an image's measures are small" in_src 'Small geometry'
count 5f "facts about the buffers of a page" in_src 'Buffered '
count 5g "products of facts in one requires" in_src 'requires [a-z_]* ?\{.*×'
count 6a "tables of fixed length" in_code ': \[[A-Z][A-Za-z]*; [0-9]+\]|: \[bool; 256\]'
count 6b "a buffer and a place in it as two parameters" in_src '^ *at: usize,'
count 7a "function pointers and dyn" in_src '\bdyn |: fn\('
count 8a "answers in files of proofs" bash -c "grep -rnE '^pub [a-z_0-9-]+ : goal' crates/*/proofs --include=Answers.antt"
count 8b "facts about all elements by recursion" grep -rnE 'ByRecursion' crates --include='*.antt'
