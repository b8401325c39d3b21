#!/usr/bin/env python3
"""Evaluates the definition of the call (crates/megaco) on recorded calls, by computed equality.

Takes N rows (default 300), of messages of at most BYTES bytes (default 200), those first that show a code, a refusal, a
report, a count of lines or a kind (by its first letter) that few before them show. A row without `lines` has eight. Each row is a theorem `holds row ≡ true`, proved by
computation, in a crate `rows` that is written into a temporary repository beside copies of `base` and `megaco`. The refusal,
the whole table, the room's words and bytes, the blocks and the whole reply buffer, filled with 170 before the call, are compared. A row without
`blocks` has 64 of zeros, one without `room` an empty one. It stands outside the gate.
"""
import collections, os, random, re, shutil, subprocess, sys, tempfile

sys.dont_write_bytecode = True
import command

ROOT = command.TOP


def number_list(bs):
    return '(' + ''.join(f'{b} ∷ ' for b in bs) + '[])'


def table(length, pairs):
    text = f'(replicate {length} 0)'
    for i, v in pairs:
        text = f'(set {text} {i} {v})'
    return text


def blocks(held):
    """The words of the blocks, 64 of zeros where a row has none."""
    return table(held['len'], held['words']) if held else table(256, [])


def room(held):
    """The words and the bytes of the room, an empty one where a row has none."""
    held = held or {'words_len': 64, 'words': [], 'bytes_len': 33920, 'bytes': []}
    parts, at = [], 0
    for place, piece in sorted((place, bytes.fromhex(piece)) for place, piece in held['bytes']):
        parts += [f'replicate {place - at} 0', number_list(piece)]
        at = place + len(piece)
    parts.append(f"replicate {held['bytes_len'] - at} 0")
    return f"(room {table(held['words_len'], held['words'])} ({' ++ '.join(parts)}))"


def kept(row):
    """What a row does to its room: keeps, drops, is a repeat, or leaves it."""
    before, after = (sum(1 for i, _ in (row.get(name) or {'words': []})['words'] if i < 16) for name in ('room', 'room_after'))
    if row['refusal']:
        return 'turned down'
    if row.get('room') == row.get('room_after'):
        return f"left, {'no ' if not row['reply'] else ''}reply"
    return 'kept' if after > before else 'dropped' if after < before else 'the oldest gone'


def marks(row):
    """What a row shows: its kind, its refusal, its count of lines, the codes of its reply, what becomes of its room."""
    found = {('kind', row['kind'][:1]), ('refusal', row['refusal']), ('lines', row.get('lines', 8))}
    reply = bytes.fromhex(row['reply'])
    found |= {('code', c) for c in re.findall(rb'ER=(\d+)', reply)}
    found |= {('report', c) for c in re.findall(rb'[{,]([A-Z]+=[A-Z$*])', reply)}
    return found | {('room', kept(row))}


def choose(rows, n, seed):
    rng = random.Random(seed)
    rng.shuffle(rows)
    have, first, rest = collections.Counter(), [], []
    for row in rows:
        if any(have[m] < 6 for m in marks(row)):
            first.append(row)
            have.update(marks(row))
        else:
            rest.append(row)
    taken = (first + rest)[:n]
    return taken


def main():
    ap = command.parser(__doc__)
    ap.add_argument('calls', metavar='CALLS.jsonl', help='recorded calls, one a line')
    ap.add_argument('--rows', metavar='N', type=int, default=300)
    ap.add_argument('--longest', metavar='BYTES', type=int, default=200)
    ap.add_argument('--seed', metavar='S', type=int, default=1)
    ap.add_argument('--keep', metavar='DIR', help='the folder for the temporary repository, which is then kept')
    a = ap.parse_args()
    command.need('rt')
    rows = command.calls(a.calls)
    rows = [r for r in rows if len(r['message']) // 2 <= a.longest]
    taken = choose(rows, a.rows, a.seed)
    work = a.keep or tempfile.mkdtemp()
    os.makedirs(f'{work}/crates/rows/src', exist_ok=True)
    os.makedirs(f'{work}/crates/rows/specs', exist_ok=True)
    for crate in ('base', 'megaco'):
        for part in ('src', 'specs', 'proofs'):
            shutil.rmtree(f'{work}/crates/{crate}/{part}', ignore_errors=True)
        shutil.copytree(f'{ROOT}/crates/{crate}', f'{work}/crates/{crate}', ignore=shutil.ignore_patterns('must-fail', 'out'), dirs_exist_ok=True)
    open(f'{work}/crates.txt', 'w').write('base:\nmegaco: base\nrows: megaco base\n')
    open(f'{work}/crates/rows/src/lib.rt', 'w').write('// Rows.\n#![tactic(auto)]\n')
    head = '''use Prim.Native.Nat.{ℕ, ◌-◌}
use mathlib.Core.Path.{◌≡◌, refl}
use mathlib.Core.Bool.{Bool, true, false, ◌&&◌}
use mathlib.Core.List.{List, [], ◌∷◌, ◌++◌}
use lib.ListN.{length, replicate, set}
use lib.Dec.{eqb}
use Rattle.base.specs.Lists.{same}
use Rattle.megaco.specs.State.{state}
use Rattle.megaco.specs.Kept.{under, find, youngest, acked}
use Rattle.megaco.specs.Room.{Room, room, slot_place, slot_id, slot_sender, slot_reply, held_in, kept_of, slot_in, found_in, slot_fits, slot_good, is_zero, row_good, room_sound, lowest_free, slot_for, lined, noted, stored, keep_at, keep_in, left, closed, drop_in}
use Rattle.megaco.specs.Call.{Called, call}
use Rattle.megaco.proofs.Opened.{opened}

abbrev fits : Called → ℕ → ℕ → List ℕ → List ℕ → Room → List ℕ → Bool
fits c b n a u r f = eqb c.refusal n && eqb c.size (length a) && same c.reply (a ++ replicate (b - length a) 170) && same c.state.table u && same c.state.blocks f && same c.room.words r.words && same c.room.bytes r.bytes

unfoldable holds : ℕ → List ℕ → List ℕ → Room → List ℕ → List ℕ → ℕ → ℕ → List ℕ → List ℕ → Room → List ℕ → Bool
unfolding opened under find youngest acked slot_place slot_id slot_sender slot_reply held_in kept_of slot_in found_in slot_fits slot_good is_zero row_good room_sound lowest_free slot_for lined noted stored keep_at keep_in left closed drop_in
holds l m t r f own b n a u s g = fits (call l m (state t f) r own (replicate b 170)) b n a u s g

'''
    per = 25
    modules = []
    for k in range(0, len(taken), per):
        module = f'Rows{k // per}'
        modules.append(module)
        with open(f'{work}/crates/rows/specs/{module}.antt', 'w', encoding='utf-8') as f:
            f.write(head)
            for i, r in enumerate(taken[k:k + per]):
                f.write(f'''-- {ascii(r['kind'])}: {bytes.fromhex(r['message'])!r}
row{k + i} : holds {r.get('lines', 8)} {number_list(bytes.fromhex(r['message']))} {table(r['table_len'], r['table'])} {room(r.get('room'))} {blocks(r.get('blocks'))} {number_list(bytes.fromhex(r['own']))} {r['buf']} {r['refusal']} {number_list(bytes.fromhex(r['reply']))} {table(r['table_len'], r['after'])} {room(r.get('room_after'))} {blocks(r.get('blocks_after'))} ≡ true
unfolding holds
row{k + i} = refl

''')
    open(f'{work}/crates/rows/specs/Lib.antt', 'w').write(''.join(f'pub mod {m}\n' for m in modules))
    shown = collections.Counter(m for r in taken for m in marks(r))
    print(f'{len(taken)} rows of {len(rows)}; codes:', ' '.join(sorted(c.decode() for k, c in shown if k == 'code')),
          '; refusals:', ' '.join(sorted(str(c) for k, c in shown if k == 'refusal')),
          '; lines:', ' '.join(map(str, sorted(c for k, c in shown if k == 'lines'))),
          '; rooms:', ', '.join(sorted(c for k, c in shown if k == 'room')))
    out = subprocess.run(['rt', 'check'], cwd=f'{work}/crates/rows', capture_output=True, text=True)
    text = out.stdout + out.stderr
    bad = sorted(set(re.findall(r'error: `(row\d+)`', text) + re.findall(r'in `(row\d+)`', text)), key=lambda s: int(s[3:]))
    limit = set(re.findall(r'in `(row\d+)`[^\n]*step limit', text) + re.findall(r'`(row\d+)`[^\n]*stopped at the step limit', text))
    for b in bad[:20]:
        r = taken[int(b[3:])]
        print('UNDECIDED (step limit)' if b in limit else 'DIFFERS', b, r['kind'], bytes.fromhex(r['message']), 'expected', r['refusal'], bytes.fromhex(r['reply']))
    ok = out.returncode == 0 and not bad
    if not ok and not bad:
        print(text[-3000:])
    print(f'{len(taken) - len(bad)} rows hold, {len(bad)} differ' if ok or bad else 'not checked')
    if not a.keep:
        shutil.rmtree(work)
    return 0 if ok else 1


if __name__ == '__main__':
    command.run(main)
