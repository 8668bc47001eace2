#!/bin/sh
# Counts what the design pass looks for in src/ and proofs/, at a commit (default: the work tree).
# Each line: a name, the number of lines found, and the pattern. A line found is a candidate; docs/DESIGN-PASS.md says which are places.
set -eu
at=${1:-}
count() {
    name=$1; where=$2; pattern=$3
    n=$(git grep -nE -e "$pattern" $at -- "$where" | wc -l)
    printf '%-34s %4d   %s\n' "$name" "$n" "$pattern"
}
src='crates/*/src/*.rt'
count '1 own enums' "$src" '^ *(pub(\(crate\))? )?enum '
count '1 flags answered' "$src" '-> (io::Result<)?bool'
count '1 fields that are numbers or flags' "$src" '^    (pub(\(crate\))? )?[a-z_]+: (u8|bool),'
count '1 numbers of kinds' "$src" 'KIND|OUTSIDE|RECEIVE|TRANSMIT|SPLIT|kind_number'
count '2 functions' "$src" '^ *(pub(\(crate\))? )?fn '
count '3 loops' "$src" '^ *(for|while|loop)\b'
count '3 loops over a range' "$src" '^ *for .* in .*\.\.'
count '4 conversions, equality, printing' "$src" 'fn (number|layer|named|is|same_name|fit|is_owner|is_variable|words|type_name|plain_name|print_[a-z]+|numbers|clone)\b'
count '4 derives of Clone, Copy alone' "$src" 'derive\(Clone, Copy\)'
count '5 requires' "$src" '^ *requires'
count '5 ensures' "$src" '^ *ensures'
count '6 slices and arrays in structs' "$src" '^    (pub(\(crate\))? )?[a-z_]+: (&.*\[|\[)'
count '7 closures and Fn bounds' "$src" 'Fn(Once|Mut)?\(|\|[a-z_, &]*\| |move \|'
count '8 answers' 'crates/*/proofs/*Answers.antt' '^pub [a-zA-Z0-9_-]+ : goal'
count '8 invariants' 'crates/*/proofs/*Invariants.antt' '^abbrev pub [a-zA-Z0-9_-]+ : goal'
count '8 lines of proofs' 'crates/*/proofs/*.antt' ''
