# Blocks for crate treating, to be filled by tools fx.py after `rt dev treating --generated target/gen` and tmpl.py (names of needs may differ by one or two).
cd "${TREE:-.}"
python3 tmpl.py treating coins fold_first fold_after fold_of settled_of treat_next treat
FX="python3 fx.py treating"
$FX coins "search needs" <<'E'
USE
-- `treating::coins` meets its contract. Assumes nothing.
use native.Mathlib.Omega.{arith}
E
$FX fold_first "search needs" <<'E'
USE
-- `treating::fold_first` meets its contract. Assumes nothing.
use native.Mathlib.Omega.{arith}
use mathlib.Core.Path.{refl, sym, ap, _∙_}
use lib.ListN.{take}
use lib.Seq.{length-take-le}
use Rattle·definition.specs.Field.{wordCount}
use Rattle·definition.specs.Sheet.{sheetOf}
use Rattle·edition.specs.Meaning.{editionOf}
use Rattle·elements.specs.Meaning.{valueIn}
use Rattle·list_laws.specs.Zeros.{zeros, length-zeros}
use Rattle·round_words.specs.Coins.{coin-at}
use Rattle·round_words.proofs.Made.{by-sheet}
use Rattle·deciding.proofs.Ready.{coin-place}
use Rattle·treating·proofs.proofs.Start.{coin, first-asks, folded-here, here, oracle-asks, ready, times-is}
===
first-state-requires
first-asks (editionOf (@args .e)) (@args .w .now) (@args .pw .now) (@pre .0)
===
first-oracle-requires
oracle-asks (editionOf (@args .e)) (@args .w .now) (@args .pw .now) (@pre .0)
===
fold-here-requires
let a = @args in
let w = a .w .now in
let ed = editionOf (a .e) in
let h = sheetOf ed w in
let t = @pre .0 in
let spelt = here ed w (a .pw .now) t .spelling in
let la = length-take-le (@words .result) (zeros 264) (omega (arith, @words .ensures .1, length-zeros 264)) ∙ by-sheet h _ spelt (@words .ensures .0) refl in
let lv = length-take-le (@words2 .result) (zeros 528) (omega (arith, @words2 .ensures .1, length-zeros 528)) ∙ by-sheet h _ spelt (@words2 .ensures .0) refl in
let s = @first-state in
let o = @first-oracle in
let v = ready ed w (a .pw .now) t (take (@words .result) (zeros 264)) (take (@words2 .result) (zeros 528)) la lv (s .result) (s .ensures) (o .result) (o .ensures) in
(here ed w (a .pw .now) t, (v .0, (v .1 .clear, omega (arith, @pre .1, times-is ed w (a .pw .now) t (s .ensures)))))
===
returns
let a = @args in
let w = a .w .now in
let ed = editionOf (a .e) in
let t = @pre .0 in
let v = @at in
folded-here ed w (a .pw .now) t (@first-state .ensures) (take (@words .result) (zeros 264)) (take (@words2 .result) (zeros 528)) (valueIn (sheetOf ed w .spelling) (@fold-here .result)) (a .n) (@first-oracle .ensures)
(coin-at ed w (v .result) (coin-place ed w (t .sheet) (t .there) (@sheet-words .ensures) (@words3 .ensures .0)) (v .ensures)) (@fold-here .ensures)
E
$FX fold_after "search needs" <<'E'
USE
-- `treating::fold_after` meets its contract. Assumes nothing.
use native.Mathlib.Omega.{arith}
use mathlib.Core.Path.{sym, _∙_}
use Rattle·definition.specs.Field.{elementsIn}
use Rattle·definition.specs.Sheet.{sheetOf}
use Rattle·edition.specs.Meaning.{editionOf}
use Rattle·elements.specs.Meaning.{valueIn}
use Rattle·settling.proofs.Told.{counted}
use Rattle·treating·proofs.proofs.Start.{behind-asks, first-asks, folded-behind, here, still-first}
===
all-treated-requires
(here (editionOf (@args .e)) (@args .w .now) (@args .pw .now) (@pre .0) .long, omega arith)
===
first-state-requires
first-asks (editionOf (@args .e)) (@args .w .now) (@args .pw .now) (@pre .0)
===
fold-behind-requires
let a = @args in
let w = a .w .now in
let ed = editionOf (a .e) in
let n = counted ed w (a .known .now) (@count .ensures) in
behind-asks ed w (a .pw .now) (@pre .0) (@count .result) (omega (arith, n, @pre .1 .1)) (@first-state .ensures) (a .known .now) (@pre .1 .0) n (sym (@all-treated .ensures) ∙ @if1 .taken)
===
returns
let a = @args in
let ed = editionOf (a .e) in
folded-behind ed (a .w .now) (a .pw .now) (@pre .0) (@first-state .ensures) (a .known .now) (valueIn (sheetOf ed (a .w .now) .spelling) (@fold-behind .result)) (@fold-behind .ensures)
===
fold-first-requires
let a = @args in
let w = a .w .now in
let ed = editionOf (a .e) in
let n = counted ed w (a .known .now) (@count .ensures) in
(@pre .0, still-first ed w (a .pw .now) (@pre .0) (@count .result) (omega (arith, n, @pre .1 .1)) (sym (@all-treated .ensures) ∙ @if1 .left))
===
returns-2
let a = @args in
let ed = editionOf (a .e) in
@fold-first .ensures (elementsIn (sheetOf ed (a .w .now) .spelling) (a .known .now)) (sym (counted ed (a .w .now) (a .known .now) (@count .ensures)))
E
$FX fold_of "search needs" <<'E'
USE
-- `treating::fold_of` meets its contract. Assumes nothing.
use native.Mathlib.Omega.{arith}
use mathlib.Core.Path.{refl, sym, ap, subst, _∙_}
use Prim.Native.Nat.{ℕ}
use lib.ListN.{length, take}
use lib.Seq.{length-take-le}
use Rattle·definition.specs.Field.{elementsIn}
use Rattle·definition.specs.Sheet.{sheetOf}
use Rattle·edition.specs.Meaning.{editionOf}
use Rattle·elements.specs.Meaning.{valueIn}
use Rattle·layouts.specs.Spellings.{read-length}
use Rattle·round_words.proofs.Made.{by-sheet}
use Rattle·treating·specs.specs.Begun.{foldAfter}
use Rattle·treating·proofs.proofs.Start.{here}
===
array-share-prefix-folds
omega (arith, @words .ensures .1, @pre .1 .0, @good .1 .1 .1 .0 .1 .0 .1)
===
slice-aggregate-fold-after
sym (length-take-le (@words .result) (@args .folds) (omega (arith, @words .ensures .1, @pre .1 .0, @good .1 .1 .1 .0 .1 .0 .1)))
===
fold-after-requires
let a = @args in
let w = a .w .now in
let h = sheetOf (editionOf (a .e)) w in
let e = by-sheet h _ (here (editionOf (a .e)) w (a .pw .now) (@pre .0) .spelling) (@words .ensures .0) refl in
let long = length-take-le (@words .result) (a .folds) (omega (arith, @words .ensures .1, @pre .1 .0, @good .1 .1 .1 .0 .1 .0 .1)) ∙ e in
let n = read-length (h .spelling) (a .n) (take (@words .result) (a .folds)) long in
(@pre .0, (long ∙ ap (λ (m : ℕ). wordsFor h m) (sym n), omega (arith, n, @pre .1 .1)))
===
returns
let a = @args in
let w = a .w .now in
let ed = editionOf (a .e) in
let h = sheetOf ed w in
let e = by-sheet h _ (here ed w (a .pw .now) (@pre .0) .spelling) (@words .ensures .0) refl in
@fold-after .ensures ∙ ap (λ (m : ℕ). foldAfter ed w (elementsIn (h .spelling) (take m (a .folds)))) e
E
# settled_of: the same with settle: (here, standing), (Whole, count-is); returns settled-is es (take ..) (settle .ensures) ∙ the same ap
# treat_next: fold-of-requires (pre .0, pre .1); treated-one-requires (pre .1 .0); settled-of-requires (pre .0, (omega .., omega ..)); returns ended-is, returns-2 open-is of Treated with fold := fold-of .result,
#   e := fold-of .ensures, en := treated-one .ensures, r := settled-of .result, s := settled-of .ensures
# treat: coins-requires words-few; returns none-left (omega (count-words, coins .ensures, if1 .taken)); treat-next-requires (pre, (omega coins-few .., ..)); returns-2 one-left .. (treat-next .ensures)
# tick: sketches/device/tick/device-code.patch, crate device: the files of tick_tested, tick_words, tick_with, tick_file, tick with `treat (h .spelling) h (readTranscript (h .spelling) h ..)`; tickedBy in specs/Ticked.antt likewise.
