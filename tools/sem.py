#!/usr/bin/env python3
"""Writes, for the evaluation of nodes, what the value of each shape is over those of its parts, and that a wide number in a part is one
in the whole (proofs/EvalSteps.antt of jh_sem), and what a changed field has at an object (proofs/Updates.antt)."""
import os

TOP = os.path.dirname(os.path.dirname(os.path.abspath(__file__)))
SORT = {'T': ('object', 'TermTree', 'term_value {} m e'), 'I': ('number', 'IntTree', 'int_value {} m e'), 'S': ('set', 'SetTree', 'set_value {} m e x'),
        'P': ('truth', 'FormulaTree', 'truth {} m e'), 'F': ('field', 'FieldTree', 'field_value {} m e')}
# sort, shape, tree, parameters (u, z, n: name, k: mark, l: list, or the sort of a part), value over a, b
SHAPES = [
    ('T', 'Bound', 'bound', 'u', 'slice_index e {0}'),
    ('T', 'FreeObject', 'free_object', 'n', 'm.object {0}'),
    ('T', 'Null', 'null', '', '0'),
    ('T', 'ReadObject', 'read_object', 'FT', '({0}).objects ({1})'),
    ('I', 'Const', 'const', 'z', '{0}'),
    ('I', 'FreeNumber', 'free_number', 'n', 'm.number {0}'),
    ('I', 'ReadNumber', 'read_number', 'FT', '({0}).numbers ({1})'),
    ('I', 'Add', 'add', 'II', '{0} +ℤ {1}'),
    ('I', 'Sub', 'sub', 'II', '{0} -ℤ {1}'),
    ('I', 'Neg', 'neg', 'I', 'neg_ℤ ({0})'),
    ('I', 'Scale', 'scale', 'zI', '{0} *ℤ {1}'),
    ('I', 'Card', 'card', 'S', 'pos (count_below (suc m.last) (λ x. {0}))'),
    ('S', 'FreeSet', 'free_set', 'n', 'm.set {0} x'),
    ('S', 'ReadSet', 'read_set', 'FT', '({0}).sets ({1}) x'),
    ('S', 'Empty', 'empty', '', 'false'),
    ('S', 'Univ', 'univ', '', 'true'),
    ('S', 'Single', 'single', 'T', 'x == {0}'),
    ('S', 'Union', 'union', 'SS', '{0} || {1}'),
    ('S', 'Inter', 'inter', 'SS', '{0} && {1}'),
    ('S', 'Diff', 'diff', 'SS', '{0} && not ({1})'),
    ('S', 'Compl', 'compl', 'S', 'not ({0})'),
    ('S', 'Compr', 'compr', 'P', '{0x}'),
    ('F', 'FreeField', 'free_field', 'n', 'm.field {0}'),
    ('F', 'Update', 'update', 'FTV', 'updated ({0}) ({1}) ({2})'),
    ('P', 'True', 'true_formula', '', 'true'),
    ('P', 'False', 'false_formula', '', 'false'),
    ('P', 'FreeTruth', 'free_truth', 'n', 'm.truth {0}'),
    ('P', 'ReadTruth', 'read_truth', 'FT', '({0}).truths ({1})'),
    ('P', 'Negation', 'negation', 'P', 'not ({0})'),
    ('P', 'And', 'and', 'PP', '{0} && {1}'),
    ('P', 'Or', 'or', 'PP', '{0} || {1}'),
    ('P', 'Implies', 'implies', 'PP', 'not ({0}) || {1}'),
    ('P', 'Iff', 'iff', 'PP', 'agree ({0}) ({1})'),
    ('P', 'All', 'all', 'P', 'every m.last (λ x. {0x})'),
    ('P', 'Ex', 'ex', 'P', 'some m.last (λ x. {0x})'),
    ('P', 'EqObject', 'eq_object', 'TT', '{0} == {1}'),
    ('P', 'EqNumber', 'eq_number', 'II', 'int_eq ({0}) ({1})'),
    ('P', 'EqSet', 'eq_set', 'SS', 'every m.last (λ x. agree ({0}) ({1}))'),
    ('P', 'Less', 'less', 'II', 'int_lt ({0}) ({1})'),
    ('P', 'LessEqual', 'less_equal', 'II', 'int_le ({0}) ({1})'),
    ('P', 'Divides', 'divides', 'zI', 'divides_number {0} ({1})'),
    ('P', 'Member', 'member', 'TS', 'set_value {1s} m e ({0})'),
    ('P', 'Subset', 'subset', 'SS', 'every m.last (λ x. not ({0}) || {1})'),
    ('P', 'Reach', 'reach', 'lTT', 'reaches m.last ({0}) ({1}) ({2})'),
    ('P', 'Tree', 'tree', 'l', 'is_forest m.last ({0})'),
    ('P', 'Mark', 'mark', 'kP', '{1}'),
]
NODE = '(slice_get (nodes t) {})'


def names(params):
    parts = iter('abcd')
    return [{'u': 'k', 'z': 'z', 'n': 'n', 'k': 'k', 'l': 'l'}.get(p) or next(parts) for p in params]


def tree(p, n):
    if p == 'u' or p == 'z':
        return n
    if p == 'n':
        return f'(the_name (slice_get t.pools.names {n}))'
    if p == 'k':
        return f'(the_mark (slice_get t.pools.marks {n}))'
    if p == 'l':
        return f'(fields_at (nodes t) (the_list (slice_get t.pools.lists {n})))'
    if p == 'V':
        return '(the_value ' + NODE.format(n) + ')'
    return f'(the_{SORT[p][0]} ' + NODE.format(n) + ')'


def value(p, n):
    x = tree(p, n)
    if p == 'l':
        return f'fields_value {x} m e'
    if p == 'V':
        return f'datum {x} m e'
    return SORT[p][2].format(x) if p in SORT else x


class Args(dict):
    pass


def main():
    out = ["""-- Written by tools/sem.py. The value of the node of each shape over those of its parts, and that what is wide in a part is in the whole.
use Rattle.std.proofs.Common.{◌≡◌, refl, sym, ap, subst, ◌∙◌, ℕ, suc, ◌==◌, Bool, true, false, not, ◌&&◌, ◌||◌, ◌∷◌, List, slice_get, slice_index, ℤ, pos, ◌+ℤ◌, ◌-ℤ◌, ◌*ℤ◌, neg_ℤ, int_lt, int_le}
use Rattle.std.specs.Ordering.{int_eq}
use Rattle.jh_form.specs.Tree.{TermTree, IntTree, SetTree, FieldTree, FormulaTree, of_object, of_number, of_truth, of_set, of_field}
use Rattle.jh_form.specs.Meaning.{Interp, count_below, every, some, agree, divides_number, updated, reaches, is_forest, term_value, int_value, set_value, field_value, datum, truth, fields_value}
use Rattle.jh_boxed.specs.Parts as part
use Rattle.jh_arena.specs.table.Entries.{Listing, the_name, the_mark, the_list, the_object, the_number, the_set, the_field, the_truth, the_value, fields_at}
use Rattle.jh_arena.specs.declared.table.shapes.Shape.TheVariants as s
use Rattle.jh_arena.specs.table.Nodes.{nodes}
use Rattle.jh_export.specs.Standing.{Stands}
use Rattle.jh_export.proofs.ValueSteps as v
use Rattle.jh_sem.specs.Wide.{IsWide}
use Rattle.jh_sem.proofs.Widening.{wide-part}

module _ (t : Listing) (i : ℕ) (m : Interp) where"""]
    rules = {}
    for sort, shape, ctor, params, meaning in SHAPES:
        ns = names(params)
        binders = ' '.join(f"({n} : {'ℤ' if p == 'z' else 'ℕ'})" for p, n in zip(params, ns))
        stands = f"Stands t i (s.{shape}{''.join(' ' + n for n in ns)})" if ns else f'Stands t i s.{shape}'
        if params and len(ns) and ns:
            pass
        word, kind, val = SORT[sort]
        whole = val.format(f'(the_{word} ' + NODE.format('i') + ')')
        vals = [value(p, n) for p, n in zip(params, ns)]
        left = meaning
        for j, (p, n) in enumerate(zip(params, ns)):
            left = left.replace('{%dx}' % j, f"truth {tree(p, n)} m (x ∷ e)").replace('{%ds}' % j, tree(p, n)).replace('{%d}' % j, vals[j])
        over = 'λ (f : %s). %s' % (kind, val.format('f'))
        extra = ' (x : ℕ)' if sort == 'S' else ''
        xs = ' x' if sort == 'S' else ''
        args = ''.join(' ' + n for n in ns)
        pre = f'{binders} → ' if binders else ''
        out.append(f"""
  pub value-{shape} : {pre}{stands} → (e : List ℕ){extra} → {left} ≡ {whole}
  value-{shape}{args} h e{xs} = ap ({over}) (v.stands-{shape} t i{args} h)""")
        rules[shape] = [f'value-{shape}']
        parts = [(p, n) for p, n in zip(params, ns) if p in SORT]
        count = sum(1 for p in params if p in SORT or p == 'V' or (p == 'l' and shape == 'Reach'))
        for p, n in parts:
            child = f'part.{ctor}-{n}' if count > 1 else f'part.{ctor}'
            if shape == 'Scale' or shape == 'Divides' or shape == 'Mark':
                child = f'part.{ctor}'
            trees = ' '.join(tree(q, y) for q, y in zip(params, ns))
            pw = SORT[p][0]
            out.append(f"""
  pub wide-{shape}-{n} : {binders} → {stands} → IsWide m (of_{pw} {tree(p, n)}) → IsWide m (of_{word} (the_{word} {NODE.format('i')}))
  wide-{shape}-{n}{args} h w = subst (λ (f : {kind}). IsWide m (of_{word} f)) (v.stands-{shape} t i{args} h) (wide-part m _ _ ({child} {trees}) w)""")
            rules[shape].append(f'wide-{shape}-{n}')
    out.append('')
    for sort, shape, ctor, params, meaning in SHAPES:
        ns = names(params)
        more = []
        for p, n in zip(params, ns):
            if p in SORT or p == 'V':
                more += [f'v.sort-{shape}-{n}', f'v.below-{shape}-{n}']
            elif p == 'n':
                more += [f'v.sort-{shape}-n']
            elif p == 'l':
                more += [f'v.sort-{shape}-l', f'v.fields-{shape}', f'v.below-{shape}-l']
        snake = ''.join(('_' if ch.isupper() and j else '') + ch.lower() for j, ch in enumerate(shape))
        out.append(f"pub ruleset {snake}_steps = ({', '.join(rules[shape] + more)})\n")
    open(os.path.join(TOP, 'crates/jh_sem/proofs/EvalSteps.antt'), 'w').write('\n'.join(out))



KINDS = [('object', 'objects', 'Obj', 'object', 'term_value {} m e', ''), ('number', 'numbers', 'Int', 'number', 'int_value {} m e', ''),
         ('truth', 'truths', 'Bool', 'truth', 'truth {} m e', ''), ('member', 'sets', 'Set', 'set', 'set_value {} m e', ' y')]
VALUES = [('of_object', 'Obj'), ('of_number', 'Int'), ('of_truth', 'Bool'), ('of_set', 'Set'), ('of_field', 'Field')]


def updates():
    o = '''-- Written by tools/sem.py. What a changed field has at an object.
use Rattle.std.proofs.Common.{◌≡◌, refl, sym, ap, subst, ◌∙◌, ℕ, ◌==◌, Bool, true, false, if◌then◌else◌, List, slice_get, Some, None, is_some}
use Rattle.std.specs.Prelude.{Option}
use Rattle.std.proofs.lemmas.Bool.{eq-eqb, eqb-true, true≢false}
use Rattle.jh_name.specs.declared.place.Sort.TheVariants as Sort
use Rattle.jh_form.specs.Tree.{ValueTree, FieldTree, of_object, of_number, of_truth, of_set, of_field}
use Rattle.jh_form.specs.Sorts.{tree_sort}
use Rattle.jh_form.specs.Meaning.{Fields, Interp, updated, term_value, int_value, set_value, field_value, datum, truth}
use Rattle.jh_boxed.specs.Parts as part
use Rattle.jh_arena.specs.table.Entries.{Listing, is_object, is_number, is_set, is_truth, the_object, the_number, the_set, the_field, the_truth, the_value}
use Rattle.jh_arena.specs.declared.table.shapes.Shape.TheVariants as s
use Rattle.jh_arena.specs.table.Nodes.{nodes}
use Rattle.jh_arena.proofs.table.PartSteps.{part-Update-c}
use Rattle.jh_export.specs.Standing.{Stands}
use Rattle.jh_export.proofs.ValueSteps as v
use Rattle.jh_export.proofs.Values.{object-sort, number-sort, truth-sort, set-sort, object-whole, number-whole, truth-whole, set-whole}
use Rattle.jh_sem.specs.Wide.{IsWide}
use Rattle.jh_sem.proofs.Below.{not-so}
use Rattle.jh_sem.proofs.Widening.{wide-part}
use Rattle.jh_sem.proofs.EvalSteps.{value-Update}

take : {X : Type 0} (b : Bool) (x y : X) → b ≡ true → x ≡ (if b then x else y)
take true x y h = refl
take false x y h = absurd (true≢false (sym h))

leave : {X : Type 0} (b : Bool) (x y : X) → b ≡ false → y ≡ (if b then x else y)
leave false x y h = refl
leave true x y h = absurd (true≢false h)
'''
    for w, acc, sv, srt, val, y in KINDS:
        yb = ' (y : ℕ)' if y else ''
        o += f'''
module _ (m : Interp) (e : List ℕ) where
  hit-{w}-at : (f : Fields) (p a : ℕ) (u : ValueTree){yb} → a ≡ p → tree_sort u ≡ Sort.{sv} → {val.format(f'(the_{srt} (Some u))')}{y} ≡ (updated f p (datum u m e)).{acc} a{y}
  unfolding the_{srt}
'''
        for k, cc in VALUES:
            if cc != sv:
                o += f"  hit-{w}-at f p a ({k} b){y} same h = absurd (cc)\n"
            elif not y:
                o += f"  hit-{w}-at f p a ({k} b) same h = take (a == p) ({val.format('b')}) (f.{acc} a) (eq-eqb a p same)\n"
            else:
                o += f"  hit-{w}-at f p a ({k} b) y same h = ap (λ (g : ℕ → Bool). g y) (take (a == p) ({val.format('b')}) (f.{acc} a) (eq-eqb a p same))\n"
        o += f'''
  miss-{w}-at : (f : Fields) (p a : ℕ) (u : ValueTree){yb} → (a ≡ p → ⊥) → f.{acc} a{y} ≡ (updated f p (datum u m e)).{acc} a{y}
'''
        for k, cc in VALUES:
            miss = f"leave (a == p) ({val.format('b')}) (f.{acc} a) (not-so (a == p) (λ h. other (eqb-true a p h)))"
            if cc != sv:
                o += f"  miss-{w}-at f p a ({k} b){y} other = refl\n"
            elif not y:
                o += f"  miss-{w}-at f p a ({k} b) other = {miss}\n"
            else:
                o += f"  miss-{w}-at f p a ({k} b) y other = ap (λ (g : ℕ → Bool). g y) ({miss})\n"
        o += f'''
  else-{w}-at : (f : Fields) (p a : ℕ) (u : ValueTree){yb} → (tree_sort u ≡ Sort.{sv} → ⊥) → f.{acc} a{y} ≡ (updated f p (datum u m e)).{acc} a{y}
'''
        for k, cc in VALUES:
            o += f"  else-{w}-at f p a ({k} b){y} h = " + ("absurd (h refl)" if cc == sv else "refl") + "\n"
        field = '(field_value (the_field (slice_get (nodes t) a)) m e)'
        at = '(term_value (the_object (slice_get (nodes t) b)) m e)'
        whole = f'(field_value (the_field (slice_get (nodes t) i)) m e).{acc} at{y}'
        new = '(slice_get (nodes t) c)'
        over = f'ap (λ (g : Fields). g.{acc} at{y}) (value-Update t i m a b c h e)'
        o += f'''
module _ (t : Listing) (i : ℕ) (m : Interp) (a b c : ℕ) (h : Stands t i (s.Update a b c)) where
  there-{w} : (o : Option ValueTree) → is_some o ≡ true → tree_sort (the_value o) ≡ Sort.{sv} → (e : List ℕ) (f : Fields) (p at : ℕ){yb} → at ≡ p → {val.format(f'(the_{srt} o)')}{y} ≡ (updated f p (datum (the_value o) m e)).{acc} at{y}
  unfolding the_value
  there-{w} None some is e f p at{y} same = absurd (cc)
  there-{w} (Some u) some is e f p at{y} same = hit-{w}-at m e f p at u{y} same is

  pub hit-{w} : (e : List ℕ) (at : ℕ){yb} → at ≡ term_value (the_object (slice_get (nodes t) b)) m e → tree_sort (the_value {new}) ≡ Sort.{sv} → {val.format(f'(the_{srt} {new})')}{y} ≡ {whole}
  hit-{w} e at{y} same is = there-{w} {new} (part-Update-c t.pools (nodes t) a b c h.fits) is e {field} {at} at{y} same ∙ {over}

  pub miss-{w} : (e : List ℕ) (at : ℕ){yb} → (at ≡ term_value (the_object (slice_get (nodes t) b)) m e → ⊥) → {field}.{acc} at{y} ≡ {whole}
  miss-{w} e at{y} other = miss-{w}-at m e {field} {at} at (the_value {new}){y} other ∙ {over}

  pub else-{w} : (e : List ℕ) (at : ℕ){yb} → (tree_sort (the_value {new}) ≡ Sort.{sv} → ⊥) → {field}.{acc} at{y} ≡ {whole}
  else-{w} e at{y} is = else-{w}-at m e {field} {at} at (the_value {new}){y} is ∙ {over}

  pub sorted-{w} : tree_sort (the_value {new}) ≡ Sort.{sv} → is_{srt} {new} ≡ true
  sorted-{w} is = {srt}-sort (nodes t) c (v.sort-Update-c t i a b c h) is

  pub wide-{w} : tree_sort (the_value {new}) ≡ Sort.{sv} → IsWide m (of_{srt} (the_{srt} {new})) → IsWide m (of_field (the_field (slice_get (nodes t) i)))
  wide-{w} is w =
      subst (λ (f : FieldTree). IsWide m (of_field f)) (v.stands-Update t i a b c h)
      (wide-part m _ _ (part.update-c (the_field (slice_get (nodes t) a)) (the_object (slice_get (nodes t) b)) (the_value {new}))
      (subst (λ (u : ValueTree). IsWide m u) ({srt}-whole {new} (sorted-{w} is)) w))

pub ruleset {w}_steps = (hit-{w}, miss-{w}, else-{w}, sorted-{w}, wide-{w})
'''
    open(os.path.join(TOP, 'crates/jh_sem/proofs/Updates.antt'), 'w').write(o)


if __name__ == '__main__':
    main()
    updates()
