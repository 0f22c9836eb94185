#!/usr/bin/env python3
"""Writes the proof that two interpretations that say the same of a universe give a formula the same meaning."""
import sys
sys.path.insert(0, __file__.rsplit('/', 1)[0])
from forms import TYPES, ORDER, TREES, MEANING, VALUE, core, is_part, names, apply, tree_type
from compare import all_ctors

SAME_SETS = {
    'union': 'λ y lt i. {a} || {b}', 'inter': 'λ y lt i. {a} && {b}', 'diff': 'λ y lt i. {a} && not ({b})', 'compl': 'λ y lt i. not ({a})',
}
MEANS = {
    'T': 'term_value a m e ≡ term_value a w e', 'I': 'int_value a m e ≡ int_value a w e', 'P': 'truth a m e ≡ truth a w e',
    'S': 'SameMembers m.last (set_value a m e) (set_value a w e)', 'F': 'SameFields m.last (field_value a m e) (field_value a w e)',
    'V': 'SameIn m.last (datum a m e) (datum a w e)', 'L': 'AllSame m.last (fields_value a m e) (fields_value a w e)',
}


def proof(ctor, kinds, ns):
    parts = {n: core(k) for k, n in zip(kinds, ns) if is_part(k)}

    def of(n):
        return f"{VALUE[parts[n]]}-alike {n} e i"

    def deep(n, x):
        return f"{VALUE[parts[n]]}-alike {n} ({x} ∷ e) (inside-more m.last {x} e lt i)"
    if ctor in ('of_object', 'of_number', 'of_truth', 'of_set', 'of_field', 'mark'):
        return of('a')
    if ctor == 'free_object':
        return 'same.object x'
    if ctor == 'free_number':
        return 'same.number x'
    if ctor == 'free_truth':
        return 'same.truth x'
    if ctor == 'free_set':
        return 'same.set x'
    if ctor == 'free_field':
        return 'same.field x'
    if ctor in ('read_object', 'read_number', 'read_truth'):
        return f"λ j. ({of('a')}).{ {'read_object': 'objects', 'read_number': 'numbers', 'read_truth': 'truths'}[ctor]} j ({of('b')} j)"
    if ctor == 'read_set':
        return f"λ y lt. ({of('a')}).sets (term_value b m e) y lt ∙ (λ j. (field_value a w e).sets ({of('b')} j) y)"
    if ctor == 'card':
        return f"ap pos (count-same m.last (set_value a m e) (set_value a w e) ({of('a')})) ∙ (λ j. pos (count_below (suc (same.last j)) (set_value a w e)))"
    if ctor == 'single':
        return f"λ y lt j. y == {of('a')} j"
    if ctor in SAME_SETS:
        return SAME_SETS[ctor].replace('λ y lt i.', 'λ y lt j.').replace('{a}', f"({of('a')} y lt j)").replace('{b}', f"({of('b')} y lt j)" if 'b' in parts else '')
    if ctor == 'compr':
        return f"λ y lt. {deep('a', 'y')}"
    if ctor == 'update':
        return f"updated-same m.last (field_value a m e) (field_value a w e) (term_value b m e) (term_value b w e) (datum c m e) (datum c w e) ({of('a')}) ({of('b')}) ({of('c')})"
    if ctor in ('all', 'ex'):
        every = 'every' if ctor == 'all' else 'some'
        return f"{every}-same m.last (λ x. truth a m (x ∷ e)) (λ x. truth a w (x ∷ e)) (λ x lt. {deep('a', 'x')}) ∙ (λ j. {every} (same.last j) (λ x. truth a w (x ∷ e)))"
    if ctor in ('eq_set', 'subset'):
        test = 'agree ({} x) ({} x)' if ctor == 'eq_set' else 'not ({} x) || {} x'
        both = [test.format(f"set_value a {z} e", f"set_value b {z} e") for z in 'mw']
        step = f"agree ({of('a')} x lt j) ({of('b')} x lt j)" if ctor == 'eq_set' else f"not ({of('a')} x lt j) || {of('b')} x lt j"
        return f"every-same m.last (λ x. {both[0]}) (λ x. {both[1]}) (λ x lt j. {step}) ∙ (λ j. every (same.last j) (λ x. {both[1]}))"
    if ctor == 'member':
        return f"{of('b')} (term_value a m e) (term_inside m universe e i a) ∙ ap (set_value b w e) ({of('a')})"
    if ctor == 'reach':
        return f"reaches-same m.last (fields_value fs m e) (fields_value fs w e) ({of('fs')}) (term_value a m e) (term_value b m e) ∙ (λ j. reaches (same.last j) (fields_value fs w e) ({of('a')} j) ({of('b')} j))"
    if ctor == 'tree':
        return f"forest-same m.last (fields_value fs m e) (fields_value fs w e) ({of('fs')}) ∙ (λ j. is_forest (same.last j) (fields_value fs w e))"
    if ctor == 'more':
        return f"({of('f')}, {of('fs')})"
    if not parts:
        return {'S': 'λ y lt. refl'}.get(ctor, None)
    text = MEANING[ctor]
    for n in parts:
        text = text.replace('{' + n + '}', f"{of(n)} j")
    return f"λ j. {text}"


def alike():
    out = [f"""-- Written by tools/alike.py.
-- Two interpretations that say the same of a universe give a formula the same meaning.
use Rattle.std.proofs.Common.{{◌≡◌, refl, sym, ap, ◌∙◌, ℕ, zero, suc, ◌<◌, ◌==◌, not, ◌&&◌, ◌||◌, List, [], ◌∷◌, pos, ◌+ℤ◌, ◌-ℤ◌, ◌*ℤ◌, neg_ℤ, int_lt, int_le}}
use Rattle.std.specs.Ordering.{{int_eq}}
use Rattle.jh_form.specs.Tree.{{{TREES}}}
use Rattle.jh_form.specs.Tree as t
use Rattle.jh_form.specs.Meaning.{{Interp, InUniverse, every, some, agree, count_below, divides_number, reaches, is_forest, {', '.join(VALUE[c] for c in ORDER + 'L')}}}
use Rattle.jh_form.proofs.Universes.{{term_inside}}
use Rattle.jh_boxed_operations.specs.comparison.Inside.{{SameMembers, SameFields, SameIn, AreInside}}
use Rattle.jh_boxed_operations.proofs.comparison.Insides.{{AllSame, updated-same, count-same, every-same, some-same, reaches-same, forest-same}}
use Rattle.jh_logic.specs.logic.Histories.{{Alike}}

-- one more object of the universe
inside-more : (n x : ℕ) (e : List ℕ) → x < suc n → AreInside n e → AreInside n (x ∷ e)
inside-more n x e lt i zero = lt
inside-more n x e lt i (suc k) = i k

module _ (m w : Interp) (universe : InUniverse m) (same : Alike m w) where
  mutual"""]
    for code in ORDER + 'L':
        f = f"{VALUE[code]}-alike"
        out.append(f"    pub {f} : (a : {tree_type(code)}) (e : List ℕ) → AreInside m.last e → {MEANS[code]}")
        for c, variant, ctor, kinds, ns in all_ctors():
            if c != code:
                continue
            text = proof(ctor, kinds, ns)
            if text is None:
                text = {'S': 'λ y lt. refl', 'L': 'tt'}.get(code, 'refl')
            out.append(f"    {f} {apply('t.' + ctor, ns)} e i = {text}")
        out.append('')
    return '\n'.join(out)


if __name__ == '__main__':
    open(f'{sys.argv[1]}/crates/jh_logic/proofs/logic/Alikes.antt', 'w').write(alike())
