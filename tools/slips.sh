#!/usr/bin/env bash
# slips.sh: writes slips into the definition, one at a time, and shows which theorem refuses each.
# Run it from the top of the repository. It works on a copy in a temporary folder: the crates of theory, without the definition's
# cases, so that no worked example can refuse a slip before a theorem does. One line for each slip; the exit status is not 0 if any was not refused.
set -euo pipefail

work=$(mktemp -d)
trap 'rm -rf "$work"' EXIT
theory='definition list_laws algebra layouts completeness dependence inverse_laws refusals sheet_laws'
pages='completeness dependence inverse_laws refusals sheet_laws'
grep -E "^(${theory// /|}):" crates.txt >"$work/crates.txt"
mkdir "$work/crates"
for crate in $theory; do
    mkdir "$work/crates/$crate"
    for part in src specs proofs; do
        [ ! -d "crates/$crate/$part" ] || cp -r "crates/$crate/$part" "$work/crates/$crate/$part"
    done
done
rm -f "$work"/crates/definition/specs/*Cases.antt "$work"/crates/dependence/proofs/Examples.antt
rm -f "$work"/crates/dependence/proofs/ExamplesReordered.antt
sed -i '/^pub mod Examples/d' "$work/crates/dependence/proofs/Lib.antt"
sed -i '/^pub mod .*Cases$/d' "$work/crates/definition/specs/Lib.antt"
cp -r "$work/crates/definition/specs" "$work/specs"

missed=0

# checked: the pages and what they stand on, the lowest first, up to the first that is not proved
checked() {
    local page
    for page in $pages; do
        echo "page $page"
        (cd "$work/crates/$page" && rt check) || return
    done
}

# slip NAME FILE OLD NEW [FILE OLD NEW ..]: each OLD must stand in its FILE
slip() {
    local name=$1 file old new text log first crate
    shift
    rm -rf "$work/crates/definition/specs"
    cp -r "$work/specs" "$work/crates/definition/specs"
    while [ $# -gt 0 ]; do
        file=$work/crates/definition/specs/$1 old=$2 new=$3
        shift 3
        text=$(cat "$file")
        if [ "${text/"$old"/}" = "$text" ]; then
            echo "NOT A SLIP $name: $(basename "$file") has no: $old"
            missed=1
            return
        fi
        printf '%s\n' "${text/"$old"/"$new"}" >"$file"
    done
    log=$work/log
    if checked >"$log" 2>&1; then
        echo "NOT REFUSED $name"
        missed=1
        return
    fi
    # rt names a file from its crate's folder, and then the crate below the page that did not build, if it is one
    first=$(grep -m 1 -oE "(specs|proofs)/[^ ]*\.antt:[0-9]+:[0-9]+: error: \`[^\`]*\`" "$log" || true)
    if [ -z "$first" ]; then
        echo "NOT REFUSED BY A THEOREM $name: $(grep -m 1 'error' "$log" || tail -n 1 "$log")"
        missed=1
        return
    fi
    crate=$(sed -n 's/^rt: the library \([a-z0-9_]*\) did not build.*/\1/p' "$log" | head -n 1)
    [ -n "$crate" ] || crate=$(sed -n 's/^page //p' "$log" | tail -n 1)
    # without its cases the definition has no theorem, so there a slip is only a text that cannot be read
    if [ "$crate" = definition ]; then
        echo "NOT A SLIP $name: the definition cannot be read: $first"
        missed=1
        return
    fi
    echo "refused $name: $crate/$(echo "$first" | sed -E 's#^[a-z]*/([^:]*):.*`([^`]*)`$#\1: \2#')"
}

if ! checked >"$work/log" 2>&1; then
    echo "the copy itself is not proved:"
    tail -n 5 "$work/log"
    exit 1
fi

# of the paper's readers (01, Slips)
slip 'e terms in the correction' Polynomial.antt 'geometric c zero = 𝟙 ∷ []' 'geometric c zero = []'
slip 'e from coins drawn' \
    Prover.antt 'corrected_poly F (distinct F (honest_answers b g c))' 'corrected_poly F (honest_answers b g c)' \
    Deciding.antt 'next_function (distinct F g) ρ' 'next_function g ρ'
slip 'quotient of f_(i-1)' Prover.antt '(next_poly b g c)' '(next_poly b f c)'

# domains, coins and their order
slip 'roots numbered j*k + m' Domain.antt 'j + m * shift_count l' 'j * l.fold + m'
slip 'domain points from exponent 0' Domain.antt 'power F ω (1 + 2 ^ l.number * j)' 'power F ω (2 ^ l.number * j)'
slip 'out coin allowed in its domain' Deciding.antt 'out_in_domain σ h (out l) x = in_domain (field_in σ h.prime) (number_in σ (root_of_unity h)) l x' 'out_in_domain σ h (out l) x = false'
slip 'table made with the fold coin after it' Prover.antt 'let g = fold_poly F b.fold r f in' 'let g = fold_poly F b.fold c.fold f in'
slip 'combination and fold coin swapped in reading' \
    Layout.antt 'combination = get_or (elements_in σ v) 0' 'combination = get_or (elements_in σ v) 1' \
    Layout.antt 'fold = get_or (elements_in σ v) 1' 'fold = get_or (elements_in σ v) 0'

# the sheet, the reads and the blocks
slip 't_i + s <= d_(i+1)' Sheet.antt 'ltb (get_or w (6 + i) 0 + get_or w 5 0)' 'leb (get_or w (6 + i) 0 + get_or w 5 0)'
slip 'one read for each coin' Deciding.antt 'coin_places l places j = flat_map places (root_numbers l j)' 'coin_places l places j = places j'
slip 'repeats read again' Deciding.antt 'reads_of used = length (different same_place used)' 'reads_of used = length used'
slip 'one place for all tables' Deciding.antt 'eqb a.table b.table && eqb a.number b.number' 'eqb a.number b.number'
slip 'every check tested as that of block 0' Block.antt '∷ wrong_checks (suc b) xs' '∷ wrong_checks b xs'
slip 'fill of ones' Block.antt 'replicate (127 * block_count (length w) - length w) 0' 'replicate (127 * block_count (length w) - length w) 1'

# what verify tests, whole, and the places that a coin leads to
slip 'a length that is a multiple of 4' Reading.antt 'length bytes % 512' 'length bytes % 4'
slip 'the checks of the first three blocks alone' \
    Reading.antt 'eqb, leb, length, drop}' 'eqb, leb, length, drop, take}' \
    Reading.antt 'wrong_checks 0 (file_blocks bytes)' 'wrong_checks 0 (take 3 (file_blocks bytes))'
slip 'a clash among the first four pairs alone' Deciding.antt 'cond (clash F g) clashed next' 'cond (clash F (take 4 g)) clashed next'
slip 'the first three final coins alone' Deciding.antt '(fold_at F ω b f r j))) js' '(fold_at F ω b f r j))) (take 3 js)'
slip 'every place point 0 of table 9' Deciding.antt 'record { table = l.number; number = j } ∷ []' 'record { table = 9; number = 0 } ∷ []'

# elements of four words
slip 'X⁴ is 12' Field.antt 'quartic (prime_field p) 11' 'quartic (prime_field p) 12'
slip 'an element counted as three words' Field.antt 'word_count four n = 4 * n' 'word_count four n = 3 * n'
slip 'c and d exchanged in reading' Field.antt 'record { a = a; b = b; c = c; d = d } ∷ quads w' 'record { a = a; b = b; c = d; d = c } ∷ quads w'
slip 'n0 up to 2048 in field 3' Sheet.antt 'largest_size four = 1024' 'largest_size four = 2048'
slip 'an out coin tested as if its later words were 0' Field.antt 'record { a = x; b = get_or w 0 0; c = get_or w 1 0; d = get_or w 2 0 } ∷ begun_by four w' 'record { a = x; b = 0; c = 0; d = 0 } ∷ begun_by four w'

# powers, the load, and the tests of the operations that write
slip 'an exponent modulo p - 1' Field.antt 'power_of field x exponent = in_field field (power (field_of field) (x % prime_of field) exponent)' 'power_of field x exponent = in_field field (power (field_of field) (x % prime_of field) (exponent % (prime_of field - 1)))'
slip 'an exponent of 31 bits in field 3' Field.antt 'power3 x exponent = power field3 (reduced x) exponent' 'power3 x exponent = power field3 (reduced x) (exponent % 2 ^ 31)'
slip 'a load from its second run' Load.antt '(drawn_inputs load_runs seed))' '(drawn_inputs load_runs (draw_input seed).next))'
slip 'a load of one run a thousand times' Load.antt '(drawn_inputs load_runs seed))' '(replicate load_runs (draw_input seed).value))'
slip 'a load without reads' Load.antt 'map (λ o. line_of (verdict_on o))' 'map (λ o. line_of (record { outcome = (verdict_on o).outcome; reads = 0 }))'
slip 'back to edition 1 without a look at k_5' Convert.antt '(map (λ k. not (eqb k (get_or h.folds 0 0))) h.folds))' '(map (λ k. not (eqb k (get_or h.folds 0 0))) (take 5 h.folds)))'

exit $missed
