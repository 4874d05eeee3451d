import shutil
for c in ['line32', 'clip32', 'marks32', 'sample32', 'map32', 'scan32']:
    shutil.rmtree(f'{OUT}/{c}', ignore_errors=True)

USES = [
    (r'^use floats::', 'use floats32::'),
    (r'^use bresenham::', 'use line32::'),
    (r'^use clip::', 'use clip32::'),
    (r'^use sample::', 'use sample32::'),
    (r'^use grid_map::', 'use map32::'),
    (r'^use marks::(mark_free_at|mark_occupied_at|model_at|steps_of|Steps|read_at|set_checked_at|set_log_odds_at|clear_odds);', r'use marks32::\1;'),
]
SPECS = [
    ('Rattle·bresenham.specs.', 'Rattle·line32.specs.'),
    ('Rattle·clip.specs.', 'Rattle·clip32.specs.'),
    ('Rattle·grid_map.specs.', 'Rattle·map32.specs.'),
]
def common(t):
    for a, b in USES:
        t = re.sub(a, b, t, flags=re.M)
    for a, b in SPECS:
        t = t.replace(a, b)
    return t

# ---- line32
def line_skip(p):
    return p in ('proofs/AxisLaws.antt', 'proofs/Laws.antt', 'proofs/Lib.antt')
def line_post(p, t):
    t = common(t)
    return t
tree('bresenham', 'line32', line_skip, laws=[('bresenham', 'AxisLaws'), ('bresenham', 'Laws')], post=line_post)
open(f'{OUT}/line32/proofs/Lib.antt', 'w').write('pub mod Injective\n')

# ---- clip32
def clip_skip(p):
    return p.startswith('proofs/OnTheMap') or p in ('proofs/ByAxis.antt', 'proofs/Crossing.antt', 'proofs/Lib.antt', 'proofs/Passages.antt', 'proofs/Trying.antt')
def sides(t):
    t = re.sub(r'\bExtents([23])\b', r'Sides\1', t)
    t = re.sub(r'\bextents([23])\b', r'sides\1', t)
    t = t.replace('extent: u64', 'extent: u16')
    t = t.replace('use types::Sides', 'use types32::Sides')
    # merge the imports of points
    def fix(m):
        return m.group(0)
    t = re.sub(r'(ghost )?use Rattle·types\.specs\.Points\.\{(sides[^}]*)\}(;?)', lambda m: f'{m.group(1) or ""}use Rattle·types32.specs.Points.{{{m.group(2)}}}{m.group(3)}', t)
    return t
def clip_post(p, t):
    t = common(sides(t))
    t = t.replace('std::num::nearest_u64_to_f64(extent)', 'number_of(extent)')
    t = t.replace('std::num::nearest_u64_to_f32(extent)', 'number_of(extent)')
    t = t.replace('nearest-u64-to-f64', 'number-of').replace('nearest-u64-to-f32', 'number-of')
    if p == 'src/slabs.rt':
        t = t.replace('use floats32::chosen;', 'use floats32::chosen;\nuse floats32::number_of;')
        t = t.replace('ghost use Rattle·rules.specs.OneBeam as OneBeam;', 'ghost use Rattle·rules.specs.Coordinates.{within as withinRule};\nghost use Rattle·rules.specs.OneBeam as OneBeam;', 1)
        t = t.replace('// Both ends beyond', '''// In [0, extent): a coordinate of exactly the extent is already past the last cell.
pub fn within(extent: u16, x: f32) -> bool
    ensures { λ r. ⌜ r ≡ withinRule binary32 extent x ⌝ }
{
    if x >= 0.0 {
        return x < number_of(extent);
    }
    false
}

// Both ends beyond''')
    if p == 'src/clip.rt':
        t = t.replace('use places::within;\n', '').replace('use crate::slabs::slab;', 'use crate::slabs::slab;\nuse crate::slabs::within;')
    return t
tree('clip', 'clip32', clip_skip, laws=[('clip', m) for m in ('OnTheMap', 'ByAxis', 'Crossing', 'Passages', 'Trying')], post=clip_post)

# ---- marks32
def marks_skip(p):
    return p in ('proofs/BandLaws.antt', 'proofs/Banding.antt', 'proofs/Lib.antt', 'proofs/Marking.antt', 'src/frames.rt', 'specs/Marking.antt', 'specs/Lib.antt') \
        or (p.startswith('proofs/frames/') and not p.startswith('proofs/frames/clear_odds'))
def marks_post(p, t):
    t = common(t)
    t = re.sub(r'(ghost )?use Rattle·marks(?:·specs\.specs|32·specs\.specs|\.specs)\.Marking\.\{([^}]*)\}(;?)', lambda m: split_marking(m), t)
    t = t.replace('proofs.frames.', 'proofs.cells.')
    if p == 'src/lib.rt':
        t = t.replace('mod frames;\n', '').replace('pub use frames::clear_odds;\n', '').replace('pub use frames::clear_stamps;\n', '').replace('pub use frames::open_stamps;\n', '').replace('pub use frames::opened;\n', '')
        t = t.replace('pub use cells::read_at;', 'pub use cells::clear_odds;\npub use cells::read_at;')
    if p == 'src/cells.rt':
        t = t.replace('ghost use lib.ListN.{length};', 'ghost use lib.ListN.{length, replicate};\nghost use Rattle·rules.specs.Floats.{zeroF};')
        t += '''
pub fn clear_odds(odds: &mut [f32])
    ensures { λ _. ⌜ now (odds .exit) ≡ replicate (length (now (odds .entry))) zeroF ⌝ }
{
    let mut i = 0;
    while i < odds.len() {
        odds[i] = 0.0;
        i += 1;
    }
}
'''
    return t
def split_marking(m):
    names = [n.strip() for n in m.group(2).split(',')]
    a = [n for n in names if n != 'stepsOf']
    b = [n for n in names if n == 'stepsOf']
    g = m.group(1) or ''
    out = []
    if a:
        out.append(f'{g}use Rattle·marks.specs.Marking.{{{", ".join(a)}}}{m.group(3)}')
    if b:
        out.append(f'{g}use Rattle·marks32·specs.specs.Marking.{{stepsOf}}{m.group(3)}')
    return '\n'.join(out)
tree('marks', 'marks32', marks_skip, laws=[('marks', m) for m in ('BandLaws', 'Banding', 'Marking')], post=marks_post, rename=lambda p: p.replace('proofs/frames/', 'proofs/cells/'))
os.makedirs(f'{OUT}/marks32/specs', exist_ok=True)
open(f'{OUT}/marks32/specs/Lib.antt', 'w').write('pub mod Marking\n')
open(f'{OUT}/marks32/specs/Marking.antt', 'w').write('''-- The steps of a cell as the rules'; what a mark leaves of the lists is `marks`' to say, of every format. Definitions only.
use Rattle·rules.specs.MarksAndFrames as Marks
use Rattle·marks32·specs.specs.declared.marks.Steps.{Steps}

abbrev pub stepsOf : Steps → Marks.Steps
stepsOf s = record { occupied = s .occupied; free = s .free; floor = s .floor; ceiling = s .ceiling }
''')

# ---- sample32
def sample_skip(p):
    return p in ('proofs/Lib.antt', 'proofs/SampleLaws.antt', 'proofs/StencilLaws.antt', 'proofs/Weighing.antt', 'specs/Sampling.antt')
CODE = {'edgeOf', 'squareOf', 'cubeOf'}
def split_sampling(m):
    names = [n.strip() for n in m.group(2).split(',')]
    a = [n for n in names if n not in CODE]
    b = [n for n in names if n in CODE]
    g = m.group(1) or ''
    out = []
    if a:
        out.append(f'{g}use Rattle·sample.specs.Sampling.{{{", ".join(a)}}}{m.group(3)}')
    if b:
        out.append(f'{g}use Rattle·sample32·specs.specs.Sampling.{{{", ".join(b)}}}{m.group(3)}')
    return '\n'.join(out)
def sample_post(p, t):
    t = common(sides(t))
    t = re.sub(r'(ghost )?use Rattle·sample32·specs\.specs\.Sampling\.\{([^}]*)\}(;?)', split_sampling, t)
    t = t.replace('std::num::nearest_u64_to_f64(extent - 1)', 'number_of(extent - 1)').replace('std::num::nearest_u64_to_f32(extent - 1)', 'number_of(extent - 1)')
    t = t.replace('nearest-u64-to-f64', 'number-of')
    t = t.replace('floats::', 'floats32::').replace('floats3232', 'floats32')
    if p == 'src/stencil.rt':
        t = t.replace('use types32::Sides2;', 'use floats32::cell_of;\nuse floats32::number_of;\nuse types32::Sides2;', 1)
        t = t.replace('floats32::number_of(cell)', 'number_of(cell as u16)').replace('floats32::cell_of(x)', 'cell_of(x)')
        t = t.replace('if cell + 1 >= extent {', 'if cell + 1 >= extent as u64 {')
        t = t.replace('cell: extent - 2,', 'cell: (extent - 2) as u64,')
    if p == 'src/sample.rt':
        t = t.replace('let row = extents.x;', 'let row = extents.x as u64;')
        t = t.replace('let plane = row * extents.y;', 'let plane = row * (extents.y as u64);')
    return t
tree('sample', 'sample32', sample_skip, laws=[('sample', m) for m in ('SampleLaws', 'StencilLaws', 'Weighing')], post=sample_post)
open(f'{OUT}/sample32/specs/Sampling.antt', 'w').write('''-- Edges, squares and cubes as the sides that both widths have, in `sample`. Definitions only.
use Rattle·sample.specs.Sampling.{Edge, Square, Cube}
use Rattle·sample32·specs.specs.declared.sample.Edge as Edges
use Rattle·sample32·specs.specs.declared.sample.Square as Squares
use Rattle·sample32·specs.specs.declared.sample.Cube as Cubes

abbrev pub edgeOf : Edges.Edge → Edge
edgeOf e = record { low = e .low; high = e .high }

abbrev pub squareOf : Squares.Square → Square
squareOf s = record { low = edgeOf (s .low); high = edgeOf (s .high) }

abbrev pub cubeOf : Cubes.Cube → Cube
cubeOf q = record { low = squareOf (q .low); high = squareOf (q .high) }
''')

# ---- map32
def map_skip(p):
    return p in ('proofs/Fresh.antt',)
def map_post(p, t):
    t = common(t)
    if p.startswith('src/map'):
        n = p[7]
        body = 'model' if n == '2' else 'bands'
        t = re.sub(r'// Reading a record of edition 2.*?\n}\n\n', '', t, flags=re.S)
        t = t.replace(f'head_check{n}(uses, self.extents, self.{body}, self.frame, odds, stamps)', f'let {body} = self.{body};\n        head_check{n}(uses, self.extents, {body}.wide(), self.frame, odds, stamps)')
        t = t.replace(f'''        let frame = Frame(1);
        match head_check{n}(Uses::NEW, extents, {body}, frame, odds.len(), stamps.len()) {{''', f'''        let map = GridMap{n} {{
            extents,
            {body},
            frame: Frame(1),
        }};
        match map.check(Uses::NEW, odds.len(), stamps.len()) {{''')
        t = t.replace(f'''                MapAnswer{n}::Map(GridMap{n} {{
                    extents,
                    {body},
                    frame,
                }})''', f'''                MapAnswer{n}::Map(map)''')
        t = t.replace(f'cell_containing{n}(self.extents, point)', f'cell_containing{n}(self.extents, point.wide())')
        t = t.replace(f'sample_log_odds{n}(self.extents, odds, point)', f'sample_log_odds{n}(\n                Sides{n}::of(self.extents),\n                odds,\n                point,\n            )')
        t = t.replace(f'use types32::SampleAnswer{n};', f'use types32::SampleAnswer{n};\nuse types32::Sides{n};')
        t = t.replace('Heads.{head2, mapOutcome2, openOutcome2, setOutcome}', 'Heads.{head2, mapOutcome2, openOutcome2}').replace('Heads.{head3, mapOutcome3, openOutcome3, setOutcome}', 'Heads.{head3, mapOutcome3, openOutcome3}')
        t = t.replace('ghost use Rattle·marks.specs.Marking.{gridOf};', 'ghost use Rattle·grid_map.specs.Heads.{setOutcome};\nghost use Rattle·marks.specs.Marking.{gridOf};')
    if p == 'src/lib.rt':
        t = re.sub(r'pub use map\d::LoadAnswer\d;\n', '', t)
    if p in ('specs/Heads.antt', 'proofs/Injective.antt'):
        pass
    t = t.replace('head-check2', 'check').replace('head-check3', 'check') if '/new/' in p else t
    return t
tree('grid_map', 'map32', map_skip, laws=[('grid_map', 'Fresh')], post=map_post)

# ---- scan32
def scan_moves(t):
    t = common(t)
    for old in ('beam', 'flat_list', 'scan'):
        t = t.replace(f'Rattle·{old}·proofs', 'Rattle·scan32·proofs')
    t = re.sub(r'^use beam::(integrate[23]);', r'use crate::beam::\1;', t, flags=re.M)
    t = re.sub(r'^use beam::(mark_\w+);', r'use crate::marking::\1;', t, flags=re.M)
    t = re.sub(r'^use flat_list::(integrate_all[23]);', r'use crate::list::\1;', t, flags=re.M)
    return t
def beam_post(p, t):
    t = scan_moves(t)
    if p == 'src/beam.rt':
        for n in '23':
            t = t.replace(f'clip_beam{n}(map.extents, origin, endpoint)', f'clip_beam{n}(Sides{n}::of(map.extents), origin, endpoint)')
        t = t.replace('use types32::ScanBeam3;', 'use types32::ScanBeam3;\nuse types32::Sides2;\nuse types32::Sides3;')
        t = re.sub(r'fn both\(.*?\n}\n\n', '', t, flags=re.S)
        t = t.replace('use line32::BresenhamLine2;', 'use beam::both;\nuse line32::BresenhamLine2;', 1)
    if p == 'src/walk.rt':
        t = re.sub(r'// Only the last cell, after.*?\n}\n\n', '', t, flags=re.S)
        t = t.replace('use line32::BresenhamLine2;', 'use beam::ends_occupied;\nuse line32::BresenhamLine2;', 1)
    return t
def beam_skip(p):
    return p in ('src/lib.rt', 'proofs/Lib.antt') or p.startswith('specs/') or '/both/' in p or '/ends_occupied/' in p \
        or p in tuple(f'proofs/{m}.antt' for m in ('Applying', 'Beaming', 'Following', 'InOrder', 'MarkLists', 'Walking'))
tree('beam', 'scan32', beam_skip, moves={}, laws=[('beam', m) for m in ('Applying', 'Beaming', 'Following', 'InOrder', 'MarkLists', 'Walking')], post=beam_post)
def list_skip(p):
    return p in ('src/lib.rt', 'proofs/Lib.antt', 'proofs/Listing.antt') or '/all_bits/' in p or '/flat_shape' in p or '/termination_of/' in p
def list_post(p, t):
    t = scan_moves(t)
    if p == 'src/list.rt':
        t = re.sub(r'// How a beam ended, by its byte\..*?\n}\n\n', '', t, flags=re.S)
        t = re.sub(r'// Every byte is 0 or 1\..*?\n}\n\n', '', t, flags=re.S)
        t = re.sub(r'pub fn flat_shape[23].*?\n}\n\n', '', t, flags=re.S)
        t = t.replace('use checks::so_many_each;\n', 'use flat_list::termination_of;\n')
        t = t.replace('use types::RayTermination;\n', '')
    return t
tree('flat_list', 'scan32', list_skip, moves={}, laws=[('flat_list', 'Listing')], post=list_post)
def upd_post(p, t):
    return scan_moves(t)
tree('scan', 'scan32', lambda p: p == 'src/lib.rt', moves={}, laws=[], post=upd_post)
open(f'{OUT}/scan32/src/lib.rt', 'w').write('''// The entries of a sweep in single precision: marks, one beam, and a flat list of beams. The original's ScanUpdater at
// f32. Function by function what `beam`, `flat_list` and `scan` are; what does not depend on the width is theirs.
mod beam;
mod follow;
mod list;
mod marking;
mod updater2;
mod updater3;
mod walk;

pub use updater2::ScanUpdater2;
pub use updater3::ScanUpdater3;
''')

# ---- helpers to leave things out
def drop_fn(t, name):
    return re.sub(r'(?:^// [^\n]*\n)*(?:^#\[[^\n]*\n)?^(?:pub )?(?:extern "C" )?fn ' + name + r'\(.*?^}\n\n?', '', t, flags=re.S | re.M)
def drop_struct(t, name):
    return re.sub(r'(?:^// [^\n]*\n)*(?:^#\[[^\n]*\n)?^pub (?:struct|enum) ' + name + r' \{.*?^}\n\n?', '', t, flags=re.S | re.M)
def drop_lines(t, *pats):
    return '\n'.join(l for l in t.split('\n') if not any(re.search(p, l) for p in pats))
def drop_abbrev(t, name):
    return re.sub(r'(?:^-- [^\n]*\n)*^abbrev (?:pub )?' + name + r' :.*?(?=\n\n|\Z)\n*', '', t, flags=re.S | re.M)

# ---- map32: the spec without records that are read
p = f'{OUT}/map32/specs/Heads.antt'
t = open(p).read()
for n in ('loadAnswer2', 'loadAnswer3', 'loadOutcome2', 'loadOutcome3', 'setOutcome'):
    t = drop_abbrev(t, n)
t = drop_lines(t, r'LoadAnswer', r'Editions\.\{Loaded\}', r'SetAnswer', r'Answers\.\{setAnswer\}')
open(p, 'w').write(t.rstrip('\n') + '\n')
p = f'{OUT}/map32/proofs/Injective.antt'
t = open(p).read()
t = drop_lines(t, r'LoadAnswer')
t = t.replace(', loadAnswer2, loadAnswer3', '')
t = re.sub(r'^(?:abbrev )?(?:pub )?load\w*[^\n]*\n(?:[^\n]+\n)*\n?', '', t, flags=re.M)
open(p, 'w').write(t.rstrip('\n') + '\n')
open(f'{OUT}/map32/proofs/Lib.antt', 'w').write('pub mod Injective\n')
for p in ('line32/src/following.rt',):
    q = f'{OUT}/{p}'
    t = open(q).read().replace('use floats32::NOT_FOLLOWED;', 'use floats::NOT_FOLLOWED;')
    open(q, 'w').write(t)

# ---- c_types32
shutil.rmtree(f'{OUT}/c_types32', ignore_errors=True)
KEEP_C = {'COddsAnswer', 'CMapAnswer2', 'CMapAnswer3', 'CSampleAnswer2', 'CSampleAnswer3', 'CLineAnswer2', 'CLineAnswer3', 'CStep2', 'CStep3',
          'odds_to_c', 'map2_to_c', 'map3_to_c', 'sample2_to_c', 'sample3_to_c', 'line2_to_c', 'line3_to_c', 'step2_to_c', 'step3_to_c'}
KEEP_S = {'cOdds', 'cRead', 'cMap2', 'cMap3', 'cSampleRead2', 'cSampleRead3', 'cSample2', 'cSample3', 'cLine2', 'cLine3', 'cStep2', 'cStep3'}
OWN_STRUCTS = {'vectorOf2', 'vectorOf3', 'modelFrom', 'bandFrom', 'pairFrom', 'bandsFrom', 'mapOf2', 'mapOf3', 'sampleOf2', 'sampleOf3', 'axisFrom', 'lineOf2', 'lineOf3'}
def split_names(t, path_re, own, wide, narrow):
    def go(m):
        names = [n.strip() for n in m.group(2).split(',')]
        a = [n for n in names if n not in own]
        b = [n for n in names if n in own]
        g = m.group(1) or ''
        out = []
        if a:
            out.append(f'{g}use {wide}.{{{", ".join(a)}}}{m.group(3)}')
        if b:
            out.append(f'{g}use {narrow}.{{{", ".join(b)}}}{m.group(3)}')
        return '\n'.join(out)
    return re.sub(r'(ghost )?use ' + path_re + r'\.\{([^}]*)\}(;?)', go, t)
def c_skip(p):
    keep = ('proofs/answers/odds_to_c', 'proofs/answers/read_to_c', 'proofs/answers2/map2', 'proofs/answers2/sample', 'proofs/answers3/map3', 'proofs/answers3/sample', 'proofs/lines/')
    if p.startswith('proofs/'):
        return not p.startswith(keep)
    return p in ('src/refusals.rt', 'specs/Refusals.antt', 'src/lib.rt', 'specs/Lib.antt')
def c_post(p, t):
    t = common(t)
    if p.startswith('src/'):
        for f in ('mark_to_c', 'count_to_c', 'sweep_to_c', 'move_to_c', 'set_to_c', 'load2_to_c', 'load3_to_c', 'cell2_to_c', 'cell3_to_c'):
            t = drop_fn(t, f)
        for s in ('CMarkAnswer', 'CCountAnswer', 'CSweepAnswer', 'CMoveAnswer', 'CLoadAnswer2', 'CLoadAnswer3', 'CCellAnswer2', 'CCellAnswer3'):
            t = drop_struct(t, s)
        t = re.sub(r'^const NO_CUTS.*?^};\n\n', '', t, flags=re.S | re.M)
        t = t.replace('use crate::refusals::', 'use c_types::')
        if p == 'src/answers.rt':
            t = drop_lines(t, r'^use types::(CountAnswer|Cuts|MarkAnswer|MoveAnswer|SetAnswer|SweepAnswer);')
        if p.startswith('src/answers'):
            t = drop_lines(t, r'LoadAnswer', r'^use types::(Cell|CellAnswer)[23];')
        t = re.sub(r'ghost use Rattle·types\.specs\.Answers\.\{[^}]*\};\n', '', t)
        t = t.replace('Heads.{mapAnswer2, loadAnswer2}', 'Heads.{mapAnswer2}').replace('Heads.{mapAnswer3, loadAnswer3}', 'Heads.{mapAnswer3}')
        def only(m):
            names = [n.strip() for n in m.group(1).split(',') if n.strip() in KEEP_S]
            return f'ghost use Rattle·c_types32·specs.specs.Answers.{{{", ".join(names)}}};'
        t = re.sub(r'ghost use Rattle·c_types32·specs\.specs\.Answers\.\{([^}]*)\};', only, t)
    if p == 'specs/Answers.antt':
        for n in ('cMark', 'cCount', 'cSweep', 'cMove', 'cSet', 'cLoad2', 'cLoad3', 'cCell2', 'cCell3'):
            t = drop_abbrev(t, n)
        t = re.sub(r'-- What an entry that writes has told C.*', '', t, flags=re.S)
        t = drop_lines(t, r'CRefusal\.', r'CMarkAnswer', r'CCountAnswer', r'CSweepAnswer', r'CMoveAnswer', r'CLoadAnswer', r'CCellAnswer', r'Entries\.\{Outcome\}', r'Editions\.', r'SweepFile', r'lib\.IntN', r'^use Prim\.Native', r'^use mathlib\.Core\.Path')
    if p == 'specs/Structs.antt':
        for n in ('cellOf2', 'cellOf3', 'extentsOf2', 'extentsOf3', 'cutsFrom', 'noModel', 'noMap', 'noSample', 'noAxis', 'noLine'):
            t = drop_abbrev(t, n)
        t = t.replace('use Rattle·types.specs.declared.points.Cell2.{Cell2}\n', '').replace('use Rattle·types.specs.declared.points.Cell3.{Cell3}\n', '')
        t = drop_lines(t, r'Extents[23]\.\{', r'Cuts\.\{', r'lib\.IntN')
        t = t.replace('\nabbrev pub vectorOf2', 'use Rattle·c_types.specs.Structs.{extentsOf2, extentsOf3, noAxis}\n\nabbrev pub vectorOf2', 1)
        t = t.replace('-- the values that stand for nothing\n', '')
    t = t.replace('Rattle·grid_map.specs.declared', 'Rattle·map32.specs.declared').replace('Rattle·bresenham.specs.declared', 'Rattle·line32.specs.declared')
    t = split_names(t, r'Rattle·c_types32·specs\.specs\.Structs', OWN_STRUCTS, 'Rattle·c_types.specs.Structs', 'Rattle·c_types32·specs.specs.Structs')
    t = t.replace('Rattle·c_types32·specs.specs.Refusals', 'Rattle·c_types.specs.Refusals')
    return t
tree('c_types', 'c_types32', c_skip, post=c_post)
open(f'{OUT}/c_types32/specs/Lib.antt', 'w').write('''-- The structs of single precision that C sees, as what the rules answer.
pub mod Structs
pub mod Answers
pub mod Lines
''')
open(f'{OUT}/c_types32/src/lib.rt', 'w').write('''// What C sees of single precision: a struct of plain numbers for each answer that holds a float, and the conversions, as
// `c_types` has them for double precision. The other answers are its own.
mod answers;
mod answers2;
mod answers3;
mod lines;

pub use answers::COddsAnswer;
pub use answers::odds_to_c;
pub use answers2::CMapAnswer2;
pub use answers2::CSampleAnswer2;
pub use answers2::map2_to_c;
pub use answers2::sample2_to_c;
pub use answers3::CMapAnswer3;
pub use answers3::CSampleAnswer3;
pub use answers3::map3_to_c;
pub use answers3::sample3_to_c;
pub use lines::CLineAnswer2;
pub use lines::CLineAnswer3;
pub use lines::CStep2;
pub use lines::CStep3;
pub use lines::line2_to_c;
pub use lines::line3_to_c;
pub use lines::step2_to_c;
pub use lines::step3_to_c;
''')

# ---- tembuzar32
shutil.rmtree(f'{OUT}/tembuzar32', ignore_errors=True)
def t_skip(p):
    ok = ('src/map', 'src/sweep2', 'src/sweep3', 'src/lines', 'proofs/map', 'proofs/sweep2', 'proofs/sweep3', 'proofs/lines', 'src/record.rt', 'src/edition2.rt', 'proofs/record/tembuzar_write', 'proofs/edition2/tembuzar_write', 'proofs/Lib.antt', 'proofs/HeadFromC.antt', 'proofs/SliceFromC.antt')
    return not p.startswith(ok) or p in ('proofs/Lib.antt', 'proofs/HeadFromC.antt', 'proofs/SliceFromC.antt')
def t_post(p, t):
    t = common(t)
    t = t.replace('tembuzar_', 'tembuzar32_')
    t = re.sub(r'\btembuzar-', 'tembuzar32-', t)
    t = re.sub(r'^use scan::', 'use scan32::', t, flags=re.M)
    t = re.sub(r'^use c_types::(\w+);', lambda m: f'use {"c_types32" if m.group(1) in KEEP_C else "c_types"}::{m.group(1)};', t, flags=re.M)
    for mod in ('Answers', 'Lines'):
        t = split_names(t, rf'Rattle·c_types\.specs\.{mod}', KEEP_S, f'Rattle·c_types.specs.{mod}', f'Rattle·c_types32.specs.{mod}')
    if p in ('src/record.rt', 'src/edition2.rt'):
        for f in ('read_record2', 'read_record3', 'read_edition2_record2', 'read_edition2_record3'):
            t = drop_fn(t, 'tembuzar32_' + f)
        t = drop_lines(t, r'^use (record_reader|edition_reader)::', r'^use c_types(32)?::(CMapAnswer|CLoadAnswer|map[23]_to_c|load[23]_to_c)', r'^use types::Cuts', )
        t = re.sub(r'^use (record_writer|edition_writer)::', 'use record_writer32::', t, flags=re.M)
    return t
tree('tembuzar', 'tembuzar32', t_skip, post=t_post, rename=lambda p: p.replace('tembuzar_', 'tembuzar32_'))
open(f'{OUT}/tembuzar32/src/lib.rt', 'w').write('''// The C face of single precision, for the station box: every entry of it, as a function with the prefix `tembuzar32_`, and
// nothing but conversions. `include/tembuzar32.h` declares them and says what a caller owes.
mod edition2;
mod lines;
mod map2;
mod map3;
mod record;
mod sweep2;
mod sweep3;
''')

# ---- record_writer32
NAME = 'record_writer32'
shutil.rmtree(f'{OUT}/{NAME}', ignore_errors=True)
def rw_text(t):
    # heads and lists are of single precision; models and every number that is written are widened
    for (old, module) in [('rows', m) for m in ('Answers', 'Ceilings', 'Magnitudes', 'Marked', 'Odds', 'Parts', 'Patterns', 'Seen', 'Shapes', 'Tried', 'Written')] + \
            [('open_rows', 'Rows'), ('open_rows', 'Steps'), ('record_writer', 'Fields'), ('edition_writer', 'Fields'), ('edition_writer', 'Rows'), ('fields', 'Bytes'), ('fields', 'Stores'), ('fields', 'Floats')]:
        t = t.replace(f'Rattle·{old}·proofs.proofs.{module}.', f'Rattle·{old}.proofs.{module}.')
    t = t.replace('Rattle·rows·proofs.proofs.writing.', f'Rattle·{NAME}·proofs.proofs.rows.')
    t = t.replace('Rattle·fields·proofs.proofs.writing.', f'Rattle·{NAME}·proofs.proofs.rows.')
    t = t.replace('Rattle·open_rows·proofs.proofs.writing.', f'Rattle·{NAME}·proofs.proofs.open_rows.')
    t = t.replace('Rattle·record_writer·proofs.proofs.', f'Rattle·{NAME}·proofs.proofs.')
    t = t.replace('Rattle·edition_writer·proofs.proofs.arranging.', f'Rattle·{NAME}·proofs.proofs.edition_fields.')
    t = t.replace('Rattle·edition_writer·proofs.proofs.record2.', f'Rattle·{NAME}·proofs.proofs.edition2.')
    t = t.replace('Rattle·edition_writer·proofs.proofs.record3.', f'Rattle·{NAME}·proofs.proofs.edition3.')
    for old in ('rows', 'open_rows', 'record_writer', 'edition_writer', 'fields'):
        t = t.replace(f'Rattle·{old}·specs.specs.', f'Rattle·{old}.specs.')
    t = t.replace('odds: &[f64]', 'odds: &[f32]').replace('numbers: &[f64]', 'numbers: &[f32]')
    t = t.replace('Rattle·grid_map.specs.Heads', 'Rattle·map32.specs.Heads')
    t = re.sub(r'^use grid_map::', 'use map32::', t, flags=re.M)
    return t
def put(path, t):
    os.makedirs(os.path.dirname(f'{OUT}/{NAME}/{path}'), exist_ok=True)
    open(f'{OUT}/{NAME}/{path}', 'w').write(t)
def src(old, f):
    return rw_text(open(f'{SRC}/{old}/src/{f}').read())
def proofs(old, d, new, names):
    for n in names:
        put(f'proofs/{new}/{n}/Proof.antt', rw_text(open(f'{SRC}/{old}/proofs/{d}/{n}/Proof.antt').read()))
# rows
t = src('rows', 'writing.rt')
t = t.replace('mark_of(model, odds[place])', 'mark_of(model, std::num::f32_to_f64_with_nan(odds[place]))')
t = t.replace('use crate::bounds::', 'use rows::').replace('use crate::refusal::record_broken;', 'use rows::record_broken;')
t = t.replace('use fields::put_floats;\n', 'use fields::put_f64;\n')
t = t.replace('// Rows of odds tried before a record is written, and written.', '// Rows of odds tried before a record is written, and written: each number widened, which is exact.')
f = open(f'{SRC}/fields/src/writing.rt').read()
m = re.search(r'// Floats of a list, from a place on\..*?\n}\n', f, flags=re.S).group(0).replace('numbers: &[f64]', 'numbers: &[f32]').replace('pub fn put_floats', 'fn put_floats').replace('put_f64(out, here, numbers[place]);', 'put_f64(out, here, std::num::f32_to_f64_with_nan(numbers[place]));')
m = m.replace('// Floats of a list, from a place on.', '// Floats of a list, from a place on, each widened.')
t = t.replace("// A row's field.", m + "\n// A row's field.")
t = t.replace('ghost use Rattle·rules.specs.Fields.{field, fieldSize, floatBytes};', 'ghost use Rattle·rules.specs.Fields.{field, fieldSize, floatBytes, floatSize};')
put('src/rows.rt', t)
proofs('rows', 'writing', 'rows', ['odds_in_bounds', 'rows_writable', 'write_row', 'write_rows'])
proofs('fields', 'writing', 'rows', ['put_floats'])
# open rows
t = src('open_rows', 'writing.rt')
t = t.replace('use crate::stamps::', 'use open_rows::').replace('use rows::odds_in_bounds;\n', '').replace('use rows::write_row;\n', '')
t = t.replace('use open_rows::stamps_not_above;', 'use crate::rows::odds_in_bounds;\nuse crate::rows::write_row;\nuse open_rows::stamps_not_above;')
put('src/open_rows.rt', t)
proofs('open_rows', 'writing', 'open_rows', ['open_rows_writable', 'write_open_rows'])
# edition 1
t = src('record_writer', 'arranging.rt')
t = t.replace('use crate::parts::put_', 'use record_writer::put_').replace('use rows::rows_writable;', 'use crate::rows::rows_writable;').replace('use rows::write_rows;', 'use crate::rows::write_rows;')
put('src/arranging.rt', t)
proofs('record_writer', 'arranging', 'arranging', ['size_if_writable', 'put_rest'])
t = src('record_writer', 'record2.rt').replace('use crate::parts::put_', 'use record_writer::put_')
t = t.replace('    let e = map.extents;\n', '    let e = map.extents;\n    let own = map.model;\n    let model = own.wide();\n').replace('map.model, ROWS_AT2', 'model, ROWS_AT2').replace('MODEL_AT2, map.model,', 'MODEL_AT2, model,')
put('src/record2.rt', t)
proofs('record_writer', 'record2', 'record2', ['write_passed2', 'write_record2'])
t = src('record_writer', 'record3.rt').replace('use crate::parts::put_', 'use record_writer::put_')
t = drop_fn(t, 'same_pair'); t = drop_fn(t, 'equal_pairs')
t = t.replace('use fields::bits_of;\n', '').replace('use types::Bands;\n', '').replace('use types::Pair;\n', '').replace('use record_writer::put_extents3;', 'use record_writer::equal_pairs;\nuse record_writer::put_extents3;')
t = t.replace('    let bands = map.bands;\n    let model = bands.lowest();', '    let own = map.bands;\n    let bands = own.wide();\n    let model = bands.lowest();')
t = t.replace('    if equal_pairs(map.bands) {', '    let bands = map.bands;\n    if equal_pairs(bands.wide()) {')
put('src/record3.rt', t)
proofs('record_writer', 'record3', 'record3', ['write_equal3', 'write_passed3', 'write_record3'])
# edition 2
t = src('edition_writer', 'arranging.rt')
t = t.replace('use crate::parts::put_mark;', 'use edition_writer::put_mark;\nuse edition_writer::row_size;').replace('use open_rows::', 'use crate::open_rows::').replace('use rows::rows_writable;', 'use crate::rows::rows_writable;').replace('use rows::write_rows;', 'use crate::rows::write_rows;')
t = drop_fn(t, 'row_size')
put('src/edition_fields.rt', t)
proofs('edition_writer', 'arranging', 'edition_fields', ['grid_writable', 'size_if_writable', 'write_grid', 'put_rest'])
for n, body in (('2', 'model'), ('3', 'bands')):
    t = src('edition_writer', f'record{n}.rt').replace('use crate::parts::put_', 'use edition_writer::put_').replace('use crate::arranging::', 'use crate::edition_fields::')
    t = t.replace('use crate::record2::uses;', 'use edition_writer::uses;')
    t = drop_fn(t, 'uses'); t = drop_fn(t, 'put_bands')
    if n == '2':
        t = t.replace('use edition_writer::put_edition;', 'use edition_writer::put_edition;\nuse edition_writer::uses;').replace('use checks::Uses;\n', '')
        t = t.replace('    let e = map.extents;\n', '    let e = map.extents;\n    let own = map.model;\n    let model = own.wide();\n').replace('        map.model,\n', '        model,\n').replace('put_model(out, MODEL_AT, map.model)', 'put_model(out, MODEL_AT, model)')
    else:
        t = t.replace('use edition_writer::put_cuts;', 'use edition_writer::put_bands;').replace('use record_writer::put_model;\n', '').replace('use types::Bands;\n', '')
        t = t.replace('    let bands = map.bands;\n', '    let own = map.bands;\n    let bands = own.wide();\n')
    put(f'src/edition{n}.rt', t)
    proofs('edition_writer', f'record{n}', f'edition{n}', [f'write_passed{n}', f'write_edition2_record{n}'])
put('src/lib.rt', '''// Writing the record of a map of single precision, of edition 1 and of edition 2, for two and three axes. Records hold
// f64: the model and every number are widened, which is exact, so the bytes and the refusals are those of the widened
// map. What does not hold the lent odds is `record_writer`'s and `edition_writer`'s own.
mod arranging;
mod edition2;
mod edition3;
mod edition_fields;
mod open_rows;
mod record2;
mod record3;
mod rows;

pub use edition2::write_edition2_record2;
pub use edition3::write_edition2_record3;
pub use record2::write_record2;
pub use record3::write_record3;
''')
