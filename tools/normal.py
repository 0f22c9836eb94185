#!/usr/bin/env python3
"""Writes that the walk from below by the rule that takes labels off gives the tree without labels, one line for each constructor."""
import os
import sys
sys.path.insert(0, __file__.rsplit('/', 1)[0])
from forms import ORDER, TYPES, apply, core, fn_of, is_part, names, tree_type

HEAD = """-- Written by tools/normal.py.
-- The walk from below by the rule that takes labels off gives the tree without labels.
use Rattle.std.proofs.Common.{◌≡◌, refl, sym, ap, ◌∙◌, ℕ, List, slice_get, Some, true}
use Rattle.jh_form.specs.Tree.{TermTree, IntTree, SetTree, FieldTree, ValueTree, FormulaTree, FieldTrees, of_truth}
use Rattle.jh_form.specs.Tree as t
use Rattle.jh_substitution.specs.jh_boxed_operations.comparison.Unmarked.{unmarked_term, unmarked_int, unmarked_set, unmarked_field, unmarked_value, unmarked_formula, unmarked_fields}
use Rattle.jh_arena.specs.table.Entries.{Pools}
use Rattle.jh_arena.specs.table.Nodes.{fits, shape_tree}
use Rattle.jh_arena.specs.declared.table.shapes.Shape.{Shape}
use Rattle.jh_arena.specs.declared.table.shapes.Shape.TheVariants as s
use Rattle.jh_arena.proofs.table.Children.{it-is-truth}
use Rattle.jh_arena.proofs.table.PartSteps.{part-Mark-a}
use Rattle.jh_normal_forms.specs.declared.rebuilding.polarity.Polarity.{Polarity}
use Rattle.jh_normal_forms.specs.declared.rebuilding.polarity.Polarity.TheVariants as pol
use Rattle.jh_normal_forms.specs.rebuilding.Built.{turned, built_term, built_int, built_set, built_field, built_value, built_formula, built_fields}
use Rattle.jh_normal_forms.specs.rebuilding.Walking.{built_at, applied}
use Rattle.jh_normal_forms.specs.negation_normal_form.Unlabelling.{bare, unlabelling}

mutual
  unfolding built_term built_int built_set built_field built_value built_formula built_fields unmarked_term unmarked_int unmarked_set unmarked_field unmarked_value unmarked_formula unmarked_fields bare
"""

TAIL = """
pub value-at : (v : ValueTree) → built_at v unlabelling pol.Both ≡ unmarked_value v
unfolding built_at unmarked_value
value-at (t.of_object a) = λ i. t.of_object (term-bare a i)
value-at (t.of_number a) = λ i. t.of_number (int-bare a i)
value-at (t.of_truth a) = λ i. t.of_truth (formula-bare a pol.Both i)
value-at (t.of_set a) = λ i. t.of_set (set-bare a i)
value-at (t.of_field a) = λ i. t.of_field (field-bare a i)

module _ (p : Pools) (ts : List ValueTree) where
  -- the label goes
  pub mark-made : (x : Shape) (m a : ℕ) (d : Polarity) → x ≡ s.Mark m a → fits p ts x ≡ true → slice_get ts a ≡ Some (applied (shape_tree p ts x) unlabelling d)
  unfolding shape_tree applied bare
  mark-made x m a d e h =
      it-is-truth (slice_get ts a) (part-Mark-a p ts m a (ap (fits p ts) (sym e) ∙ h)) ∙ ap (λ y. Some (applied (shape_tree p ts y) unlabelling d)) (sym e)

  -- all else stays
  pub other-made : (x : Shape) (d : Polarity) → ((m a : ℕ) → x ≡ s.Mark m a → ⊥) → applied (shape_tree p ts x) unlabelling d ≡ shape_tree p ts x
  unfolding shape_tree applied bare
  other-made (s.Mark m a) d h = absurd (h m a refl)
  other-made _ d h = refl
"""


def polarity(ctor, at):
    if ctor == 'iff':
        return 'pol.Both'
    return '(turned s)' if ctor == 'negation' or (ctor == 'implies' and at == 0) else 's'


def part(code, ctor, kind, n, at):
    c = core(kind)
    if c == 'P':
        return f"(formula-bare {n} {polarity(ctor, at) if code == 'P' else 'pol.Both'} i)"
    return f"({fn_of(c)}-bare {n} i)"


def line(code, ctor, kinds):
    ns = names(kinds)
    s = ' s' if code == 'P' else ''
    head = f"  {fn_of(code)}-bare {apply('t.' + ctor, ns)}{s} = "
    if ctor == 'mark':
        return head + 'formula-bare a s'
    if not any(is_part(k) for k in kinds):
        return head + 'refl'
    args, at = [], 0
    for kind, n in zip(kinds, ns):
        args.append(part(code, ctor, kind, n, at) if is_part(kind) else n)
        at += 1
    return head + f"λ i. t.{ctor} {' '.join(args)}"


def lemma():
    out = [HEAD]
    for code in ORDER:
        fn = fn_of(code)
        sig = '(s : Polarity) → ' if code == 'P' else ''
        out.append(f"  {fn}-bare : (a : {tree_type(code)}) → {sig}built_{fn} a unlabelling{' s' if code == 'P' else ''} ≡ unmarked_{fn} a".replace(') → (s', ') (s'))
        out += [line(code, ctor, kinds) for _, ctor, kinds in TYPES[code][3]]
        out.append('')
    out.append("""  fields-bare : (a : FieldTrees) → built_fields a unlabelling ≡ unmarked_fields a
  fields-bare t.none = refl
  fields-bare (t.more f fs) = λ i. t.more (field-bare f i) (fields-bare fs i)""")
    return '\n'.join(out) + '\n' + TAIL


if __name__ == '__main__':
    root = os.path.join(os.path.dirname(os.path.abspath(__file__)), '..', 'crates', 'jh_normal_forms')
    with open(os.path.join(root, 'proofs/negation_normal_form/Labels.antt'), 'w') as out:
        out.write(lemma())
