#!/usr/bin/env python3
# gen.py FROM INTO: makes the single precision crates from the double precision ones, as text.
import os, re, sys
SRC, OUT = sys.argv[1] + '/crates', sys.argv[2] + '/crates'
T32 = set('Point2 Point3 Vector2 Vector3 ScanBeam2 ScanBeam3 Clipped2 Clipped3 Model Pair Bands MapSample2 MapSample3 CellRead OddsAnswer SampleRead2 SampleRead3 SampleAnswer2 SampleAnswer3'.split())
S32 = set('point2 point3 vector2 vector3 beam2 beam3 clipped2 clipped3 modelOf pairOf bandsOf sample2 sample3 cellRead oddsAnswer sampleRead2 sampleRead3 sampleAnswer2 sampleAnswer3'.split())

def split_use(line, path, wide, names32, narrow):
    m = re.match(r'^(\s*(?:ghost )?use )' + re.escape(path) + r'\.\{([^}]*)\}(;?)\s*$', line)
    if not m:
        return None
    names = [n.strip() for n in m.group(2).split(',')]
    a = [n for n in names if n.split(' ')[0] not in names32]
    b = [n for n in names if n.split(' ')[0] in names32]
    out = []
    if a:
        out.append(f'{m.group(1)}{wide}.{{{", ".join(a)}}}{m.group(3)}')
    if b:
        out.append(f'{m.group(1)}{narrow}.{{{", ".join(b)}}}{m.group(3)}')
    return out

def convert(text, moves, laws):
    """moves: old crate -> new crate; laws: (old crate, module) that stay shared"""
    out = []
    for line in text.split('\n'):
        done = None
        for mod in ['Points', 'Models', 'Beams', 'Samples', 'Answers']:
            done = split_use(line, f'Rattle·types.specs.{mod}', f'Rattle·types.specs.{mod}', S32, f'Rattle·types32.specs.{mod}')
            if done is not None:
                break
        if done is None:
            m = re.match(r'^use types::(\w+);$', line)
            if m:
                done = [f'use {"types32" if m.group(1) in T32 else "types"}::{m.group(1)};']
        if done is None:
            m = re.match(r'^(use Rattle·types\.specs\.declared\.)(\w+)\.(\w+)(.*)$', line)
            if m and m.group(3) in T32:
                done = [f'use Rattle·types32.specs.declared.{m.group(2)}.{m.group(3)}{m.group(4)}']
        if done is None:
            done = [line]
        out += done
    t = '\n'.join(out)
    t = t.replace('binary64', 'binary32')
    t = re.sub(r'\bf64\b', 'f32', t)
    for (old, module) in laws:
        t = t.replace(f'Rattle·{old}·proofs.proofs.{module}', f'Rattle·{old}.proofs.{module}')
        t = t.replace(f'Rattle·{old}·specs.specs.{module}', f'Rattle·{old}.specs.{module}')
    for old, new in moves.items():
        t = t.replace(f'Rattle·{old}·', f'Rattle·{new}·')
    return t

def tree(old, new, skip=lambda p: False, moves=None, laws=(), post=None, rename=None):
    for d, _, files in os.walk(f'{SRC}/{old}'):
        for f in files:
            p = os.path.relpath(os.path.join(d, f), f'{SRC}/{old}')
            if p.startswith('must-fail') or skip(p):
                continue
            t = open(f'{SRC}/{old}/{p}').read()
            t = convert(t, moves or {old: new}, laws)
            q = rename(p) if rename else p
            if post:
                t = post(p, t)
            os.makedirs(os.path.dirname(f'{OUT}/{new}/{q}'), exist_ok=True)
            open(f'{OUT}/{new}/{q}', 'w').write(t)

exec(open(os.path.join(os.path.dirname(__file__), 'crates.py')).read())
