#!/usr/bin/env python3
"""Writes the law that exchanging a part for one of the same value keeps the meaning, where both may have loose bound variables."""
import sys
sys.path.insert(0, __file__.rsplit('/', 1)[0])
from forms import ORDER, TREES, MEANING, VALUE, core, is_part, apply, tree_type, fn_of
from compare import WRAP, SAME_SETS, all_ctors

REWRITTEN = {'T': 'rewritten_term', 'I': 'rewritten_int', 'S': 'rewritten_set', 'F': 'rewritten_field', 'V': 'rewritten_value', 'P': 'rewritten_formula', 'L': 'rewritten_fields'}
OR = {'T': 'object', 'I': 'number', 'S': 'set', 'F': 'field', 'P': 'truth'}
MEANS = {
    'T': 'term_value {a} m e ≡ term_value {b} m e', 'I': 'int_value {a} m e ≡ int_value {b} m e', 'P': 'truth {a} m e ≡ truth {b} m e',
    'S': 'SameMembers m.last (set_value {a} m e) (set_value {b} m e)', 'F': 'SameFields m.last (field_value {a} m e) (field_value {b} m e)',
    'V': 'SameIn m.last (datum {a} m e) (datum {b} m e)', 'L': 'AllSame m.last (fields_value {a} m e) (fields_value {b} m e)',
}

HEAD = f"""-- Written by tools/exchange.py.
-- Exchanging parts for others of the same value keeps the meaning, whatever the objects of the binders that are passed on the way.
use Rattle.std.proofs.Common.{{◌≡◌, refl, sym, ap, subst, ◌∙◌, ℕ, zero, suc, ◌<◌, ◌+◌, ◌==◌, not, ◌&&◌, ◌||◌, Bool, true, false, if◌then◌else◌, Option, Some, None, List, [], ◌∷◌, drop, pos, ◌+ℤ◌, ◌-ℤ◌, ◌*ℤ◌, neg_ℤ, int_lt, int_le, add-one, arith}}
use Rattle.std.specs.Ordering.{{int_eq}}
use Rattle.jh_form.specs.Tree.{{{TREES}}}
use Rattle.jh_form.specs.Tree as t
use Rattle.jh_form.specs.Meaning.{{Datum, Interp, InUniverse, agree, divides_number, reaches, {', '.join(VALUE[c] for c in ORDER + 'L')}}}
use Rattle.jh_form.proofs.Universes.{{term_inside}}
use Rattle.jh_boxed_operations.specs.comparison.Exchanged.{{equal_trees}}
use Rattle.jh_boxed_operations.specs.comparison.Inside.{{SameMembers, SameFields, SameIn, AreInside}}
use Rattle.jh_boxed_operations.proofs.comparison.Equalities.{{equal_trees-true}}
use Rattle.jh_boxed_operations.proofs.comparison.Insides.{{AllSame, fields-same, updated-same, count-same, every-same, some-same, reaches-same, forest-same}}
use Rattle.jh_substitution.specs.rewriting.Exchanging.{{new_for}}
use Rattle.jh_substitution.specs.rewriting.Rewritten.{{Rewriting, {', '.join(OR[c] + '_or' for c in 'TISFP')}, {', '.join(REWRITTEN[c] for c in ORDER + 'L')}}}
use Rattle.jh_substitution.specs.exchange.Under.{{raised, new_at, exchanging_under}}
use Rattle.jh_substitution.proofs.exchange.Liftings.{{raised-means}}

-- what stands for a part is the new value, and the part the old one
chosen-pair : (old new v w : ValueTree) (b : Bool) → equal_trees v old ≡ b → (if b then Some new else None) ≡ Some w → (v ≡ old) × (w ≡ new)
chosen-pair old new v w true is q = (equal_trees-true v old is, cc)
chosen-pair old new v w false is q = absurd (cc)

pair-of : (old new v w : ValueTree) → new_for old new v ≡ Some w → (v ≡ old) × (w ≡ new)
pair-of old new v w q = chosen-pair old new v w (equal_trees v old) refl q

-- one more object of the universe
pub inside-more : (n x : ℕ) (e : List ℕ) → x < suc n → AreInside n e → AreInside n (x ∷ e)
inside-more n x e lt w zero = lt
inside-more n x e lt w (suc k) = w k

-- the objects behind the first d, and all of the universe
abbrev Beyond : Interp → List ℕ → ℕ → List ℕ → Type 0
Beyond m e0 d e = (drop d e ≡ e0) × AreInside m.last e

deeper : (m : Interp) (e0 : List ℕ) (d x : ℕ) (e : List ℕ) → x < suc m.last → Beyond m e0 d e → Beyond m e0 (d + 1) (x ∷ e)
deeper m e0 d x e lt h = (ap (λ k. drop k (x ∷ e)) (add-one d) ∙ h.0, inside-more m.last x e lt h.1)

module _ (m : Interp) (e : List ℕ) where
"""


def picks():
    out = []
    for c in 'TISFP':
        name, tree = OR[c], tree_type(c)
        out.append(f"  {name}-by : (o : Option ValueTree) (a b : {tree}) → ((w : ValueTree) → o ≡ Some w → SameIn m.last (datum (t.{WRAP[c]} a) m e) (datum w m e)) → {MEANS[c].format(a='a', b='b')} → {MEANS[c].format(a='a', b=f'({name}_or o b)')}")
        out.append(f"  unfolding {name}_or")
        out.append(f"  {name}-by (Some (t.{WRAP[c]} x)) a b h k = h (t.{WRAP[c]} x) refl")
        out.append(f"  {name}-by _ a b h k = k")
        out.append('')
    return '\n'.join(out)


MODULE = """module _ (old new : ValueTree) (m : Interp) (universe : InUniverse m) (e0 : List ℕ) (same : SameIn m.last (datum old m e0) (datum new m e0)) where
  keeps : (d : ℕ) (e : List ℕ) → Beyond m e0 d e → SameIn m.last (datum (raised d old) m e) (datum (raised d new) m e)
  keeps d e h =
      let left : datum old m e0 ≡ datum (raised d old) m e = ap (datum old m) (sym h.0) ∙ sym (raised-means d old m e) in
      let right : datum new m e0 ≡ datum (raised d new) m e = ap (datum new m) (sym h.0) ∙ sym (raised-means d new m e) in
      subst (λ (x : Datum). SameIn m.last x (datum (raised d new) m e)) left (subst (λ (x : Datum). SameIn m.last (datum old m e0) x) right same)

  here : (d : ℕ) (e : List ℕ) → Beyond m e0 d e → (v w : ValueTree) → new_at old new d v ≡ Some w → SameIn m.last (datum v m e) (datum w m e)
  here d e h v w q =
      let p = pair-of (raised d old) (raised d new) v w q in
      subst (λ (z : ValueTree). SameIn m.last (datum z m e) (datum w m e)) (sym p.0) (subst (λ (z : ValueTree). SameIn m.last (datum (raised d old) m e) (datum z m e)) (sym p.1) (keeps d e h))

  abbrev X : Rewriting
  X = exchanging_under old new

  mutual
    unfolding REWRITTEN
""".replace('REWRITTEN', ' '.join(REWRITTEN[c] for c in ORDER + 'L'))


def new_of(kind, n):
    deep = '(d + 1)' if kind.endswith('+') else 'd'
    return f"({REWRITTEN[core(kind)]} {n} X {deep})"


def proof(code, ctor, kinds, ns):
    parts = {n: k for k, n in zip(kinds, ns) if is_part(k)}
    new = {n: new_of(k, n) for n, k in parts.items()}

    def rel(n):
        return f"{VALUE[core(parts[n])]}-under {n} d e h"

    def deep(n, x):
        return f"{VALUE[core(parts[n])]}-under {n} (d + 1) ({x} ∷ e) (deeper m e0 d {x} e lt h)"
    if not parts:
        return {'S': 'λ y lt. refl', 'L': 'tt', 'F': 'fields-same m.last (m.field x)'}.get(code, 'refl')
    if ctor in ('of_object', 'of_number', 'of_truth', 'of_set', 'of_field', 'mark'):
        return rel('a')
    if ctor in ('read_object', 'read_number', 'read_truth'):
        return f"λ i. ({rel('a')}).{ {'T': 'objects', 'I': 'numbers', 'P': 'truths'}[code]} i ({rel('b')} i)"
    if ctor == 'read_set':
        return f"λ y lt. ({rel('a')}).sets (term_value b m e) y lt ∙ (λ i. (field_value {new['a']} m e).sets ({rel('b')} i) y)"
    if ctor == 'card':
        return f"ap pos (count-same m.last (set_value a m e) (set_value {new['a']} m e) ({rel('a')}))"
    if ctor == 'single':
        return f"λ y lt i. y == {rel('a')} i"
    if ctor in SAME_SETS:
        return SAME_SETS[ctor].replace('{a}', f"({rel('a')} y lt i)").replace('{b}', f"({rel('b')} y lt i)" if 'b' in parts else '')
    if ctor == 'compr':
        return f"λ y lt. {deep('a', 'y')}"
    if ctor == 'update':
        return f"updated-same m.last (field_value a m e) (field_value {new['a']} m e) (term_value b m e) (term_value {new['b']} m e) (datum c m e) (datum {new['c']} m e) ({rel('a')}) ({rel('b')}) ({rel('c')})"
    if ctor in ('all', 'ex'):
        every = 'every' if ctor == 'all' else 'some'
        return f"{every}-same m.last (λ x. truth a m (x ∷ e)) (λ x. truth {new['a']} m (x ∷ e)) (λ x lt. {deep('a', 'x')})"
    if ctor in ('eq_set', 'subset'):
        test = 'agree ({} x) ({} x)' if ctor == 'eq_set' else 'not ({} x) || {} x'
        both = [test.format(f"set_value {a} m e", f"set_value {b} m e") for a, b in (('a', 'b'), (new['a'], new['b']))]
        step = f"agree ({rel('a')} x lt i) ({rel('b')} x lt i)" if ctor == 'eq_set' else f"not ({rel('a')} x lt i) || {rel('b')} x lt i"
        return f"every-same m.last (λ x. {both[0]}) (λ x. {both[1]}) (λ x lt i. {step})"
    if ctor == 'member':
        return f"{rel('b')} (term_value a m e) (term_inside m universe e h.1 a) ∙ ap (set_value {new['b']} m e) ({rel('a')})"
    if ctor == 'reach':
        return f"reaches-same m.last (fields_value fs m e) (fields_value {new['fs']} m e) ({rel('fs')}) (term_value a m e) (term_value b m e) ∙ (λ i. reaches m.last (fields_value {new['fs']} m e) ({rel('a')} i) ({rel('b')} i))"
    if ctor == 'tree':
        return f"forest-same m.last (fields_value fs m e) (fields_value {new['fs']} m e) ({rel('fs')})"
    if ctor == 'more':
        return f"({rel('f')}, {rel('fs')})"
    text = MEANING[ctor]
    for n in parts:
        text = text.replace('{' + n + '}', f"{rel(n)} i")
    return f"λ i. {text}"


def meanings():
    out = [HEAD + picks(), MODULE]
    for code in ORDER + 'L':
        f = f"{VALUE[code]}-under"
        out.append(f"    pub {f} : (a : {tree_type(code)}) (d : ℕ) (e : List ℕ) → Beyond m e0 d e → {MEANS[code].format(a='a', b=f'({REWRITTEN[code]} a X d)')}")
        for c, variant, ctor, kinds, ns in all_ctors():
            if c != code:
                continue
            pattern = apply('t.' + ctor, ns)
            told = proof(code, ctor, kinds, ns)
            if code in 'TISFP':
                made = apply('t.' + ctor, [new_of(k, n) if is_part(k) else n for k, n in zip(kinds, ns)])
                wrapped = f"(t.{WRAP[code]} {pattern})"
                told = f"{OR[code]}-by m e (new_at old new d {wrapped}) {pattern} {made} (here d e h {wrapped}) ({told})"
            out.append(f"    {f} {pattern} d e h = {told}")
        out.append('')
    return '\n'.join(out).rstrip() + '\n'


if __name__ == '__main__':
    open(f'{sys.argv[1]}/crates/jh_substitution/proofs/exchange/Meanings.antt', 'w').write(meanings())
