# base.py TREE, the base's part: laws over two formats, and what the second width shares made public.
import sys, re
R = sys.argv[1] + '/crates'
def edit(p, *pairs):
    t = open(f'{R}/{p}').read()
    for a, b in pairs:
        assert t.count(a) == 1, (p, a, t.count(a))
        t = t.replace(a, b)
    open(f'{R}/{p}', 'w').write(t)
def new(p, t):
    open(f'{R}/{p}', 'w').write(t)
p = 'laws/specs/Floats/OneForm.antt'
t = open(f'{R}/{p}').read()
i = t.index('pub value-unique')
body = t[i:]
body = body.replace('value-unique', 'same-value').replace('(f : Format) (x y : Float) (s : Bool) (a c : ℕ) → 0 < c → T (fits f x) → T (fits f y)', '(f g : Format) (x y : Float) (s : Bool) (a c : ℕ) → 0 < c → T (fits f x) → T (fits g y)')
body = body.replace('same-value f ', 'same-value f g ')
# names: exponents were called g in the clauses
body = re.sub(r'\(fin u zero g\)', '(fin u zero d)', body)
body = re.sub(r'\(fin u \(suc n\) g\)', '(fin u (suc n) d)', body)
body = body.replace('(up g)', '(up d)').replace('(down g)', '(down d)').replace('up-pos g', 'up-pos d').replace('down-pos g', 'down-pos d')
body = body.replace('zero-exp f u g q', 'zero-exp g u d q').replace('is-odd f u n g q', 'is-odd g u n d q').replace('same-exp (suc m) (suc n) e g', 'same-exp (suc m) (suc n) e d')
t = t[:i] + '-- in any two formats\n' + body.rstrip('\n') + '''

pub value-unique : (f : Format) (x y : Float) (s : Bool) (a c : ℕ) → 0 < c → T (fits f x) → T (fits f y) → HasValue x s a c → HasValue y s a c → x ≡ y
value-unique f = same-value f f
'''
t = t.replace("-- A value that fits the format is written in one way only, so a float whose value is known is known as data. Assumes\n-- nothing.", "-- A value that fits a format is written in one way only, whichever format that is, so a float whose value is known is\n-- known as data. Assumes nothing.")
open(f'{R}/{p}', 'w').write(t)
# following, again in another format
t = open(f'{R}/floats/proofs/Following.antt').read()
t = t.replace('use lib.Ieee.Fits.{down-pos}', 'use lib.Ieee.Fits.{down-pos}\nuse lib.Ieee.Order.{transfer}')
t = t.replace('use mathlib.Core.Bool.{true, false}', 'use mathlib.Core.Bool.{true, false, true≢false}')
t = t.rstrip('\n') + '''

-- what is followed in one format is followed in another where it lies below that one's margin
pub again : (f g : Format) (c : ℕ) (x : Float) → c ≤ mostExtent → Inside f c x → T (le x (add g (numberF g c) (below-face g))) → Inside g c x
again f g c nan h i l = absurd (i .is)
again f g c (inf s) h i l = absurd (i .is)
again f g c (fin true m e) h i l = absurd (true≢false (i .is .0))
again f g c (fin false m e) h i l =
    record {
      num = i .num;
      den = i .den;
      positive = i .positive;
      is = i .is;
      from = i .from;
      to =
          transfer (i .num) (highest g c) (i .den) (parts g) (m * up e) (highest g c) (down e) (parts g) (down-pos e) (some-parts g) (sym (i .is .1)) refl
          (below-exact (fin false m e) _ (highest g c) (parts g) (some-parts g) (bound-value g c h) tt l);
    }
'''
open(f'{R}/floats/proofs/Following.antt', 'w').write(t)
new('places/proofs/Widths.antt', '''-- An extent is the same number in every format, so a point's cell is the same in every format that has its coordinates.
-- Assumes nothing.
use Prim.Native.Nat.{ℕ, suc, _≤_}
use mathlib.Core.Bool.{Bool, false, not, cond, _&&_}
use mathlib.Core.List.{List, [], _∷_}
use mathlib.Core.Path.{_≡_, refl, ap, ap₂, _∙_}
use lib.IntN.{ℤ}
use lib.Dec.{T, lit<}
use lib.Ieee.{Float, Format, lt, le, fits, ofInt}
use lib.Ieee.Fits.{round-fits}
use lib.Ieee.Scale.{finite}
use Rattle·rules.specs.Floats.{zeroF, numberF}
use Rattle·rules.specs.RefusalNumbers.{Answer, given, refused, andThen, outOfBounds, nonFiniteCoordinate}
use Rattle·rules.specs.TheGridAndItsBounds.{mostExtent}
use Rattle·rules.specs.Coordinates.{within, truncated, withBit, outsideAxes, axisContaining, containingFrom, cellContaining}
use Rattle·laws.specs.Checks.{AxesInBounds}
use Rattle·laws.specs.Floats.OneForm.{same-value}
use Rattle·laws.specs.Floats.Sizes.{number-value}

number-fits : (f : Format) (n : ℕ) → T (fits f (numberF f n))
unfolding numberF ofInt
number-fits f n = round-fits f false n 1

module _ (f g : Format) where
  same-number : (n : ℕ) → n ≤ mostExtent → numberF f n ≡ numberF g n
  same-number n h = same-value f g (numberF f n) (numberF g n) false n 1 (lit< tt) (number-fits f n) (number-fits g n) (number-value f n h) (number-value g n h)

  same-within : (e : ℕ) (x : Float) → e ≤ mostExtent → within f e x ≡ within g e x
  unfolding within
  same-within e x h = ap (λ (l : Float). le zeroF x && lt x l) (same-number e h)

  same-outside : (es : List ℕ) (xs : List Float) → AxesInBounds es → outsideAxes f es xs ≡ outsideAxes g es xs
  unfolding outsideAxes
  same-outside [] xs b = refl
  same-outside (e ∷ es) [] b = refl
  same-outside (e ∷ es) (x ∷ xs) b =
      ap₂ (λ (w : Bool) (n : ℕ). cond (finite x) (withBit (not w) n) 0) (same-within e x (b .1)) (same-outside es xs (b .2))

  same-axis : (off k e : ℕ) (x : Float) → e ≤ mostExtent → axisContaining f off k e x ≡ axisContaining g off k e x
  unfolding axisContaining
  same-axis off k e x h =
      ap (λ (w : Bool). cond (finite x) (cond w (given (truncated x)) (refused (outOfBounds k (truncated x) e off))) (refused (nonFiniteCoordinate k))) (same-within e x h)

  same-from : (off k : ℕ) (es : List ℕ) (xs : List Float) → AxesInBounds es → containingFrom f off k es xs ≡ containingFrom g off k es xs
  unfolding containingFrom
  same-from off k [] xs b = refl
  same-from off k (e ∷ es) [] b = refl
  same-from off k (e ∷ es) (x ∷ xs) b =
      ap₂ (λ (a : Answer ℤ) (r : Answer (List ℤ)). andThen a (λ c. andThen r (λ cs. given (c ∷ cs)))) (same-axis off k e x (b .1)) (same-from off (suc k) es xs (b .2))

  pub same-cell : (es : List ℕ) (xs : List Float) → AxesInBounds es → cellContaining f es xs ≡ cellContaining g es xs
  unfolding cellContaining
  same-cell es xs b = ap (λ (n : ℕ). containingFrom f n 0 es xs) (same-outside es xs b) ∙ same-from (outsideAxes g es xs) 0 es xs b
''')
t = open(f'{R}/places/proofs/Lib.antt').read()
open(f'{R}/places/proofs/Lib.antt', 'w').write(t.rstrip('\n') + '\npub mod Widths\n')
# shared functions
edit('beam/src/beam.rt', ('fn both(a: bool, b: bool) -> bool', 'pub fn both(a: bool, b: bool) -> bool'))
edit('beam/src/walk.rt', ('fn ends_occupied(occupied: bool, remaining: u64) -> bool', 'pub fn ends_occupied(occupied: bool, remaining: u64) -> bool'))
t = open(f'{R}/beam/src/lib.rt').read()
t = t.replace('pub use beam::integrate2;', 'pub use beam::both;\npub use beam::integrate2;').rstrip('\n') + '\npub use walk::ends_occupied;\n'
open(f'{R}/beam/src/lib.rt', 'w').write(t)
edit('c_types/src/lib.rt', ('pub use refusals::CRefusal;', 'pub use refusals::CRefusal;\npub use refusals::bare;'))
edit('rows/src/lib.rt', ('pub use reading::read_row;', 'pub use bounds::HIGHEST;\npub use bounds::mark_of;\npub use reading::read_row;'))
edit('open_rows/src/lib.rt', ('pub use writing::open_rows_writable;', 'pub use stamps::stamps_not_above;\npub use stamps::write_stamps;\npub use writing::open_rows_writable;'))
edit('edition_writer/src/arranging.rt', ('fn row_size(', 'pub fn row_size('))
edit('edition_writer/src/lib.rt', ('pub use parts::put_cuts;', 'pub use arranging::row_size;\npub use parts::put_cuts;'), ('pub use record2::write_edition2_record2;', 'pub use record2::uses;\npub use record2::write_edition2_record2;'), ('pub use record3::write_edition2_record3;', 'pub use record3::put_bands;\npub use record3::write_edition2_record3;'))
# crates.txt
p = sys.argv[1] + '/crates.txt'
t = open(p).read()
t = t.rstrip('\n') + '''
types32: rules laws types
floats32: rules laws types floats
line32: rules laws types types32 floats floats32 bresenham
clip32: rules laws types types32 floats32 places clip
marks32: rules laws types types32 places marks
sample32: rules laws types types32 floats32 sample
map32: rules laws types types32 checks places marks marks32 sample32 grid_map
scan32: rules laws types types32 checks floats32 line32 places clip32 marks marks32 map32 beam flat_list
c_types32: rules types types32 line32 map32 c_types
record_writer32: rules laws types types32 checks marks fields rows open_rows record_writer edition_writer map32
tembuzar32: rules types types32 marks line32 map32 scan32 record_writer32 c_types c_types32
'''
open(p, 'w').write(t)
