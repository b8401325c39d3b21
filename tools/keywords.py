#!/usr/bin/env python3
"""The table of keywords: the constant in crates/keywords/src/lib.rt.

Compares the constant with the rows of the definition (crates/megaco/specs/Keywords.antt), with the tokens (crates/megaco/src/lib.rt)
and with the page (docs/KEYWORDS.md), and the derived files with what it would write. Exit 1 on a difference.
"""
import os
import re
import sys

sys.dont_write_bytecode = True
import command

ROOT = command.TOP
TABLE = "crates/keywords/src/lib.rt"
DEFINITION = "crates/megaco/specs/Keywords.antt"
TOKENS = "crates/megaco/src/lib.rt"
PAGE = "docs/KEYWORDS.md"
SRC = "crates/keywords/src/rows.rt"
PROOFS = "crates/keywords/proofs"
MOST = 5  # tests in one function by length


def read(path):
    return command.text(os.path.join(ROOT, path))


def part(text, start, end, path):
    i = text.find(start)
    j = text.find(end, i + len(start))
    if i < 0 or j < 0:
        sys.exit("%s: no %r .. %r" % (path, start, end))
    return text[i + len(start) : j]


def table():
    body = part(read(TABLE), "const KEYWORDS: ", "];", TABLE)
    head, _, body = body.partition("[\n")
    rows, wrong = [], []
    row = r' {4}Row\(\s*Token::(\w+),\s+\*b"([^" ]+ *)",\s+\*b"([^" ]+ *)",?\s*\),\n'
    for token, long, short in re.findall(row, body):
        if (len(long), len(short)) != (24, 2):
            wrong.append("%s: not 24 and 2 characters: %s" % (TABLE, token))
        rows.append((token, long.rstrip(), short.rstrip()))
    if re.sub(row, "", body).strip():
        wrong.append("%s: not a row: %s" % (TABLE, re.sub(row, "", body).strip()))
    if head != "[Row; %d] = " % len(rows):
        wrong.append("%s: the number of rows" % TABLE)
    return rows, wrong


def definition():
    body = part(read(DEFINITION), "\npage =\n", "∷ []", DEFINITION)
    return re.findall(r'row (\w+) \(text "([^"]+)"\) \(text "([^"]+)"\)', body)


def tokens():
    return re.findall(r"(\w+),", part(read(TOKENS), "pub enum Token {", "}", TOKENS))


def page():
    rows = re.findall(r"^\| (\w+Token) \| `([^`]+)` \| `([^`]+)` \|", read(PAGE), re.M)
    return [(t, long.upper(), short) for t, long, short in rows]


# ---- the derived files


def forms(rows):
    """Each length with its forms, each by its row's place, in the table's order."""
    out = {}
    for i, (_, long, short) in enumerate(rows):
        out.setdefault(len(long), []).append((i, "long"))
        out.setdefault(len(short), []).append((i, "short"))
    return sorted(out.items())


def pieces(rows):
    """The functions by length: the length, the first form's place among those of the length, the forms, whether more follow."""
    for n, fs in forms(rows):
        for j in range(0, len(fs), MOST):
            yield n, j, fs[j : j + MOST], j + MOST < len(fs)


def name(n, j):
    return "letters_%d" % n if j == 0 else "letters_%d_from_%d" % (n, j)


def law(n, j):
    return name(n, j) + "_is"


def source(rows):
    out = """// A word's row and its meaning. Derived from the table in lib.rt: tools/keywords.py --write.
ghost use Rattle.std.specs.Prelude.{◌≡◌, length};
ghost use Rattle.std.proofs.Math.Option.{some};
ghost use Rattle.base.specs.Lists.{same};
ghost use Rattle.megaco.specs.Bytes.{capitals};
ghost use Rattle.megaco.specs.Keywords.{page, forms_of, spells, meaning_of};
ghost use Rattle.keywords.specs.Page.{row_of, rows_of, token_at, long_of, short_of, token_of, meaning_later};

use crate::{KEYWORDS, Row};
use megaco::Token;

// ---- rows

// The table, laid down by itself: where its rows are also told apart the check is far dearer.
fn table() -> [Row; %d]
    ensures { result ≡ rows_of page }
{
    KEYWORDS
}

// The row at a place, past the end the last one. Places and lengths are numbers that stand in the code where a form is asked for, so that
// the compiler makes constants of the table; a table that is read at a variable place is laid down first.
fn row_at(i: usize) -> Row
    ensures { result ≡ row_of (token_at i) }
{
    let t = table();
    match i {
""" % len(rows)
    for i in range(len(rows) - 1):
        out += "        %d => t[%d],\n" % (i, i)
    out += "        _ => t[%d],\n" % (len(rows) - 1)
    out += """    }
}

fn is_long(w: &[u8], i: usize, n: usize) -> bool
    requires { n ≡ length (long_of (forms_of (token_at i))) }
    ensures { result ≡ same (capitals w.now) (long_of (forms_of (token_at i))) }
{
    let r = row_at(i);
    let f = r.1;
    crate::is_form(w, &f[0..n])
}

fn is_short(w: &[u8], i: usize, n: usize) -> bool
    requires { n ≡ length (short_of (forms_of (token_at i))) }
    ensures { result ≡ same (capitals w.now) (short_of (forms_of (token_at i))) }
{
    let r = row_at(i);
    let f = r.2;
    crate::is_form(w, &f[0..n])
}

fn is_either(w: &[u8], i: usize, long: usize, short: usize) -> bool
    requires { (long ≡ length (long_of (forms_of (token_at i)))) × (short ≡ length (short_of (forms_of (token_at i)))) }
    ensures { result ≡ spells (token_at i) w.now }
{
    is_long(w, i, long) | is_short(w, i, short)
}

// Whether a word is the keyword, in either form and any letter case: each row by itself, so that it is a constant.
pub fn spells(k: Token, w: &[u8]) -> bool
    ensures { result ≡ spells k w.now }
{
    match k {
"""
    for i, (token, long, short) in enumerate(rows):
        out += "        Token::%s => is_either(w, %d, %d, %d),\n" % (token, i, len(long), len(short))
    out += """    }
}

// What a row's keyword means.
fn of(i: usize) -> Option<Token>
    ensures { token_of result ≡ some (token_at i) }
{
    let r = row_at(i);
    let m = r.0;
    Some(m)
}

// ---- words by their length

"""
    for n, j, fs, more in reversed(list(pieces(rows))):
        out += "fn %s(w: &[u8]) -> Option<Token>\n" % name(n, j)
        out += "    ensures { token_of result ≡ meaning_later %d %d w.now }\n{\n" % (n, j)
        for i, kind in fs:
            out += "    if is_%s(w, %d, %d) {\n        return of(%d);\n    }\n" % (kind, i, n, i)
        out += "    %s\n}\n\n" % ("%s(w)" % name(n, j + MOST) if more else "None")
    out += """// The meaning of the row that spells the word, letter case aside, or none.
pub fn meaning_of(w: &[u8]) -> Option<Token>
    ensures { token_of result ≡ meaning_of w.now }
{
    let n = w.len();
"""
    for n, _ in forms(rows):
        out += "    if n == %d {\n        return %s(w);\n    }\n" % (n, name(n, 0))
    return out + "    None\n}\n"


def laws(rows):
    out = """-- What each function by length tests. Derived from the table: tools/keywords.py --write.
use Prim.Native.Nat.{ℕ}
use mathlib.Core.Path.{◌≡◌, refl}
use mathlib.Core.List.{List}
use mathlib.Core.Option.{some, none}
use Rattle.base.specs.Pick.{pick}
use Rattle.base.specs.Lists.{same}
use Rattle.megaco.specs.Bytes.{capitals}
use Rattle.megaco.specs.Keywords.{forms_of}
use Rattle.keywords.specs.Page.{long_of, short_of, token_at, spellings_of, first_of, sized, later, meaning_later}
"""
    for n, j, fs, more in pieces(rows):
        out += "\npub %s : (w : List ℕ) → meaning_later %d %d w\n" % (law(n, j), n, j)
        for first, (i, kind) in enumerate(fs):
            test = "pick (same (capitals w) (%s_of (forms_of (token_at %d)))) (some (token_at %d))" % (kind, i, i)
            out += "    %s%s\n" % ("≡ " if first == 0 else "(", test)
        last = "(meaning_later %d %d w)" % (n, j + MOST) if more else "none"
        out = out.rstrip("\n") + " " + last + ")" * (len(fs) - 1) + "\n"
        out += "unfolding pick meaning_later sized later spellings_of forms_of first_of long_of short_of token_at\n"
        out += "%s w = refl\n" % law(n, j)
    return out


def proof(fn, uses, unfolding, answers):
    spec = fn + "_spec"
    return (
        "use borrow.Author.Rules.{rules}\n"
        + "".join("use %s\n" % u for u in uses)
        + "use Rattle.keywords.proofs.rows.%s.Statement.{statement}\n" % fn
        + "use Rattle.keywords.proofs.rows.%s.Tie as tie\n\n" % fn
        + "pub %s : {M : Type 1} → statement M\n" % spec
        + ("unfolding %s\n" % unfolding if unfolding else "")
        + "%s =\n    tie.close\n    (tie.spec\n" % spec
        + "\n".join("    " + a for a in answers)
        + ")\n"
    )


def proofs(rows):
    need, call = "(λ c. search rules)", "(λ c κs. search rules)"
    size = "(λ c κs. unfold token_at forms_of %s in refl)"
    out = {}
    last = len(rows) - 1
    out["table"] = proof(
        "table",
        [
            "mathlib.Core.Path.{refl}",
            "Rattle.megaco.specs.Keywords.{forms_of}",
            "Rattle.keywords.specs.Page.{row_of, rows_of, long_of, short_of, padded}",
        ],
        "row_of rows_of long_of short_of padded forms_of",
        ["(λ c. refl)"],
    )
    out["row_at"] = proof(
        "row_at",
        [
            "mathlib.Core.Path.{refl}",
            "Rattle.keywords.specs.Page.{rows_of, token_at}",
            "Rattle.keywords.proofs.RowLaws.{laid, row_is, last_row}",
        ],
        "rows_of token_at",
        [call]
        + [need] * len(rows)
        + ["(λ c. row_is _ %d _ c.in-%d.is (laid _ %d _ c.table-t.ensures refl))" % (i, i, i) for i in range(last)]
        + ["(λ c. last_row %d c.args.i _ refl (search rules) (laid _ %d _ c.table-t.ensures refl))" % (last, last)],
    )
    for kind in ("long", "short"):
        out["is_" + kind] = proof(
            "is_" + kind,
            ["Rattle.keywords.proofs.RowLaws.{%s_fits, %s_formed, %s_is}" % (kind, kind, kind)],
            "",
            [call, need, need, "(λ c. search %s_fits)" % kind, "(λ c κs. search %s_formed)" % kind, "(λ c. search %s_is)" % kind],
        )
    out["is_either"] = proof("is_either", ["Rattle.keywords.proofs.RowLaws.{either_is}"], "", [call, call, "(λ c. search either_is)"])
    out["spells"] = proof(
        "spells",
        [
            "mathlib.Core.Path.{refl}",
            "Rattle.megaco.specs.Keywords.{forms_of}",
            "Rattle.keywords.specs.Page.{token_at, long_of, short_of}",
            "Rattle.keywords.proofs.RowLaws.{spells_at}",
        ],
        "",
        [need, "(λ c κs. unfold token_at forms_of long_of short_of in (refl, refl))"] * len(rows)
        + ["(λ c. spells_at %d _ _ _ _ c.in-%s.is (unfold token_at in refl) c.is_either%s.ensures)" % (i, row[0], "-in-" + row[0] if i else "") for i, row in enumerate(rows)],
    )
    out["of"] = proof("of", ["Rattle.keywords.proofs.RowLaws.{of_row}"], "", [call, "(λ c. search of_row)"])
    for n, j, fs, more in pieces(rows):
        ret = "(λ c. rw (%s _) (search (pick_yes_by, pick_no_by) depth 20))" % law(n, j)
        last = ret if more else "(λ c. unfold token_of in rw (%s _) (search (pick_yes_by, pick_no_by) depth 20))" % law(n, j)
        out[name(n, j)] = proof(
            name(n, j),
            [
                "mathlib.Core.Path.{refl}",
                "Rattle.base.specs.Pick.{pick_yes_by, pick_no_by}",
                "Rattle.megaco.specs.Keywords.{forms_of}",
                "Rattle.keywords.specs.Page.{token_at, long_of, short_of, token_of}",
                "Rattle.keywords.proofs.LengthLaws.{%s}" % law(n, j),
            ],
            "",
            [x for _, kind in fs for x in (size % (kind + "_of"), call, ret)] + ([call] if more else []) + [last],
        )
    lengths = [n for n, _ in forms(rows)]
    unmet = "".join("(c.if-n-eq%d.false, " % n for n in lengths)
    unmet += "tt" + ")" * len(lengths)
    out["meaning_of"] = proof(
        "meaning_of",
        [
            "mathlib.Core.Path.{refl}",
            "mathlib.Core.List.{[], ◌∷◌}",
            "Rattle.base.specs.Pick.{pick}",
            "Rattle.base.specs.Lists.{has}",
            "Rattle.keywords.specs.Page.{spellings_of}",
            "Rattle.keywords.proofs.RowLaws.{at_length, lengths_in, no_length}",
        ],
        "",
        [call, "(λ c. search at_length)"] * len(lengths)
        + ["(λ c. no_length (%s ∷ []) _ (unfold lengths_in spellings_of has pick in refl) %s)" % (" ∷ ".join(str(n) for n in lengths), unmet)],
    )
    return out


def derived(rows):
    out = {SRC: source(rows), PROOFS + "/LengthLaws.antt": laws(rows)}
    for fn, text in proofs(rows).items():
        out["%s/rows/%s/Proof.antt" % (PROOFS, fn)] = text
    return out


def used(text):
    """A proof's text without the imported names that nothing in it uses, which `rt tidy` drops."""
    body = re.sub(r"(?m)^use .*\n", "", text)
    names = set(re.split(r"[\s(){};,.]+", body)) | ({"◌≡◌"} if "≡" in body else set()) | ({"◌∷◌"} if "∷" in body else set())
    uses = []
    for of, listed in re.findall(r"(?m)^use (\S+)\.\{([^}]*)\}$", text):
        uses += [(of, name) for name in listed.split(", ") if name in names]
    return sorted(uses), re.sub(r"(?m)^use \S+\.\{[^}]*\}\n", "", text)


def compare(what, rows, others):
    if rows == others:
        return []
    out = [
        "%s: %s, and the constant has %s" % (what, b if b else "no row", a if a else "no row")
        for a, b in zip(rows + [None] * len(others), others + [None] * len(rows))
        if a != b
    ]
    return out[:1]


def main():
    words = command.parser(__doc__)
    words.add_argument("--write", action="store_true", help="write the derived files: src/rows.rt, proofs/LengthLaws.antt and proofs/rows/ of "
                       "crates/keywords. Nothing that it writes is trusted: the check proves it")
    write = words.parse_args().write
    rows, wrong = table()
    if write:
        if wrong:
            sys.exit("\n".join(wrong))
        files = derived(rows)
        old = os.path.join(ROOT, PROOFS, "rows")
        for fn in os.listdir(old) if os.path.isdir(old) else []:
            path = "%s/rows/%s/Proof.antt" % (PROOFS, fn)
            if path not in files:
                os.remove(os.path.join(ROOT, path))
                os.rmdir(os.path.join(old, fn))
        for path, text in files.items():
            full = os.path.join(ROOT, path)
            os.makedirs(os.path.dirname(full), exist_ok=True)
            if not os.path.exists(full) or read(path) != text:
                with open(full, "w", encoding="utf-8") as f:
                    f.write(text)
                print("wrote", path)
        return
    wrong += compare(DEFINITION, rows, definition())
    wrong += compare(TOKENS, [r[0] for r in rows], tokens())
    wrong += compare(PAGE, rows, page())
    files = derived(rows)
    for path, text in files.items():
        same = used if path.endswith(".antt") else str
        if not os.path.exists(os.path.join(ROOT, path)) or same(read(path)) != same(text):
            wrong.append("%s is not what tools/keywords.py --write writes" % path)
    for fn in os.listdir(os.path.join(ROOT, PROOFS, "rows")):
        if "%s/rows/%s/Proof.antt" % (PROOFS, fn) not in files:
            wrong.append("%s/rows/%s: no function of the table's" % (PROOFS, fn))
    if wrong:
        sys.exit("\n".join(wrong))
    print("keywords: %d rows, the same in the constant, the definition and the page" % len(rows))


if __name__ == "__main__":
    command.run(main)
