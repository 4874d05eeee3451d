# hand.py FROM INTO: the proofs of single precision that are no copies.
import os, re, sys
SRC, OUT = sys.argv[1] + '/crates', sys.argv[2] + '/crates'
def put(crate, path, fn, note, uses, body, spec):
    d = f'{OUT}/{crate}/proofs/{path}'
    os.makedirs(d, exist_ok=True)
    mod = path.replace('/', '.')
    text = f'-- {note}\n' + ''.join(u + '\n' for u in uses)
    text += f'use Rattle·{crate}·proofs.proofs.{mod}.Statement.{{statement}}\nuse Rattle·{crate}·proofs.proofs.{mod}.Tie as tie\n\n'
    text += body + '\n' + f'pub {fn}-spec : {{M : Type 1}} → statement M\n{fn}-spec = tie.close (tie.spec {spec})\n'
    open(f'{d}/Proof.antt', 'w').write(text)
N = 'use borrow.Author.Needs.{needs}'
S = '(λ c κs. search needs)'
def calls(n, name='f32-to-f64-with-nan'):
    out = []
    for i in range(n):
        out.append('c ' + '.before ' * (n - 1 - i) + f'.{name}{"" if i == 0 else i + 1} .ensures')
    return ', '.join(out)
for path, n in (('model/Model/wide', 3), ('model/Pair/wide', 2), ('points/Point2/wide', 2), ('points/Point3/wide', 3)):
    put('types32', path, 'wide', 'Widening changes no value.', [N], f'returns : tie.Need-returns\nreturns c = simp ({calls(n)})\n', ' '.join([S] * n) + ' returns')
put('types32', 'model/Bands/wide', 'wide', 'Each pair is a call\'s, and widening changes no value.', [N],
    'returns : tie.Need-returns\nreturns c = λ e. simp (c .before .before .before .wide .ensures, c .before .before .wide2 .ensures, c .before .wide3 .ensures, c .f32-to-f64-with-nan .ensures)\n',
    ' '.join([S] * 4) + ' returns')
for n, k in (('2', 2), ('3', 3)):
    casts = ['x', 'y', 'z'][:k]
    put('types32', f'points/Sides{n}/of', 'of', 'An extent in bounds is below 4,097, and so below 2 ^ 16.',
        ['use mathlib.Core.Path.{refl}', 'use native.Mathlib.Omega.{arith}', N],
        'returns : tie.Need-returns\nreturns c = refl\n', ' '.join(['(λ c. omega arith)'] * k) + ' returns')
put('floats32', 'cell_of', 'cell-of', "Widening changes no value, so the wider one's cell is this one's.",
    ['use mathlib.Core.Path.{ap, _∙_}', 'use mir.Syntax.{w64}', 'use mir.ValLaws.{toZ-ofZ}', N, 'use Rattle·rules.specs.Coordinates.{truncated}'],
    'returns : tie.Need-returns\nreturns c =\n    toZ-ofZ w64 (c .cell-of .result) (record { sfits = c .cell-of .ok }) ∙ c .cell-of .ensures\n    ∙ ap truncated (c .before .f32-to-f64-with-nan .ensures)\n', f'{S} {S} returns')
put('floats32', 'count_of', 'count-of', "Widening changes no value, so the wider one's count is this one's.",
    ['use mathlib.Core.Path.{ap, _∙_}', N, 'use lib.Ieee.{toUnsigned}'],
    'returns : tie.Need-returns\nreturns c = c .count-of .ensures ∙ ap (toUnsigned 64) (c .before .f32-to-f64-with-nan .ensures)\n', f'{S} {S} returns')
put('floats32', 'number_of', 'number-of', 'A number of 16 bits is one of the floats.',
    ['use mathlib.Core.Path.{refl}', N, 'use Rattle·rules.specs.Floats.{numberF}'],
    'returns : tie.Need-returns\nunfolding numberF\nreturns c = refl\n', '(λ c. search needs) returns')
d = f'{OUT}/floats32/proofs/is_finite'
os.makedirs(d, exist_ok=True)
t = open(f'{SRC}/floats/proofs/is_finite/Proof.antt').read().replace('binary64', 'binary32').replace('Rattle·floats·proofs.proofs.Sizes', 'Rattle·floats.proofs.Sizes').replace('Rattle·floats·', 'Rattle·floats32·')
open(d + '/Proof.antt', 'w').write(t)
d = f'{OUT}/floats32/proofs/followed_cell'
os.makedirs(d, exist_ok=True)
open(d + '/Proof.antt', 'w').write('''-- A cell that double precision follows, and that lies below single precision's margin too.
use mathlib.Core.Path.{sym, subst}
use native.Mathlib.Omega.{arith}
use lib.Dec.{T}
use borrow.Author.Needs.{needs}
use lib.Ieee.{Float, binary32, binary64}
use Rattle·rules.specs.Floats.{numberF}
use Rattle·laws.specs.Floats.Inside.{Followed}
use Rattle·floats.proofs.Following.{below-face, again}
use Rattle·floats32·proofs.proofs.followed_cell.Statement.{statement}
use Rattle·floats32·proofs.proofs.followed_cell.Tie as tie

returns : tie.Need-returns
returns c h = absurd (omega arith)

returns-2 : tie.Need-returns-2
returns-2 c h =
    let f = c .before .before .before in
    let x = f .before .before .args .x in
    again binary64 binary32 _ x h (subst (λ (y : Float). Followed binary64 _ y) (f .before .f32-to-f64-with-nan .ensures) (f .followed-cell .ensures) h)
    (subst T (sym (c .if2 .taken)) tt)

returns-3 : tie.Need-returns-3
returns-3 c h = absurd (omega arith)

pub followed-cell-spec : {M : Type 1} → statement M
followed-cell-spec = tie.close (tie.spec (λ c κs. search needs) (λ c κs. search needs) returns (λ c. omega arith) (λ c κs. search needs) returns-2 returns-3)
''')
# within of clip32
put('clip32', 'slabs/within', 'within', 'By the two tests, at the code\'s zero.',
    [N, 'use lib.Ieee.{binary32}', 'use Rattle·laws.specs.Literals.{zero-is}', 'use Rattle·places.proofs.ByAxis.{from-zero-on, under-zero}'],
    'returns : tie.Need-returns\nreturns c = from-zero-on binary32 _ _ (zero-is binary32) (c .number-of .ensures) (c .before .if1 .taken)\n\nreturns-2 : tie.Need-returns-2\nreturns-2 c = under-zero binary32 _ _ (zero-is binary32) (c .if1 .left)\n', f'{S} returns returns-2')

# map32: what is asked of the widened head and point
for n, body, of in (('2', 'model', 'modelOf'), ('3', 'bands', 'bandsOf')):
    head = 'record { extents = extents2 (s .args .self .extents); model = m; frame = s .args .self .frame .0 }' if n == '2' else 'record { extents = extents3 (s .args .self .extents); model = m; frame = s .args .self .frame .0 }'
    wide = 'c .before .wide .ensures' if n == '2' else 'c .before .wide .ensures (s .args .self .extents)'
    put('map32', f'map{n}/GridMap{n}/check', 'check', 'Widening changes no number of the model, so the checks are those of this head.',
        ['use mathlib.Core.Path.{ap, _∙_}', N, 'use Rattle·rules.specs.TheGridAndItsBounds.{Model}', 'use Rattle·rules.specs.RefusalNumbers.Entries.{headRefusal}', 'use Rattle·types.specs.Points.{extents%s}' % n, 'use Rattle·checks.specs.Checking.{usesOf}'],
        f"""returns : tie.Need-returns
returns c =
    let s = c .before .before .before in
    c .head-check{n} .ensures
    ∙ ap (λ (m : Model). headRefusal (usesOf (s .args .uses)) ({head}) (s .args .odds) (s .args .stamps)) ({wide})
""", f'{S} {S} returns')
    d = f'{OUT}/map32/proofs/map{n}/GridMap{n}/cell_containing/Proof.antt'
    u = open(d).read()
    u = u.replace('use borrow.Author.Needs.{needs}', 'use borrow.Author.Needs.{needs}\nuse lib.Ieee.{binary32, binary64}')
    u = u.replace('use Rattle·checks.specs', f'use Rattle·rules.specs.Coordinates.{{cellContaining}}\nuse Rattle·laws.specs.Checks.{{passed}}\nuse Rattle·places.proofs.Widths.{{same-cell}}\nuse Rattle·checks.specs')
    u = re.sub(r'returns-2 c =\n.*?\n\n', f"""returns-2 c =
    let fine = sym (c .before .before .before .before .check .ensures) ∙ ap checkOf (c .before .before .enum-told .given .1) in
    rw fine
    (c .cell-containing{n} .ensures ∙ ap (cellContaining binary64 _) (c .before .wide .ensures)
    ∙ same-cell binary64 binary32 _ _ (passed _ _ _ _ fine .extents .0))

""", u, flags=re.S)
    u = u.replace('    (λ c κs. search needs)\n    returns\n', '    (λ c κs. search needs)\n    (λ c κs. search needs)\n    returns\n')
    open(d, 'w').write(u)
