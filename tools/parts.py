#!/usr/bin/env python3
"""Writes the list of the parts of a tree in the order in which they stand, and what it is at each shape of a table."""
import os
import sys
sys.path.insert(0, __file__.rsplit('/', 1)[0])
from forms import TREES, core, family, fn_of, is_part
from table import IS, THE, WRAP, apply, list_of, names, shapes

SORT = {'T': 'object', 'I': 'number', 'S': 'set', 'F': 'field', 'P': 'truth'}


def nested(items):
    """The lists one behind the other, grouped to the right."""
    return items[0] if len(items) == 1 else f"{items[0]} ++ " + (nested(items[1:]) if len(items) == 2 else f"({nested(items[1:])})")


def case(code, ctor, kinds, ns):
    if code == 'V':
        return f"{fn_of(core(kinds[0]))}_parts a o"
    inner = [f"{fn_of(core(k))}_parts {n} o" for k, n in zip(kinds, ns) if is_part(k)]
    inside = f"({nested(inner)})" if inner else '[]'
    return f"around o (t.{WRAP[code]} {apply('t.' + ctor, ns)}) {inside}"


def standing():
    return f"""-- Written by tools/parts.py.
-- The parts of a tree, in the order in which they stand.
use Rattle.std.specs.Prelude.{{List, [], ◌∷◌, ◌++◌}}
use Rattle.jh_form.specs.Tree.{{{TREES}}}
use Rattle.jh_form.specs.Tree as t
use Rattle.jh_normal_forms.specs.declared.parts.order.Order.{{Order}}
use Rattle.jh_normal_forms.specs.declared.parts.order.Order.TheVariants as order

-- a part, where it stands before the parts inside it
abbrev pub before : Order → ValueTree → List ValueTree
before order.OuterFirst v = v ∷ []
before order.InnerFirst v = []

-- a part, where it stands behind the parts inside it
abbrev pub behind : Order → ValueTree → List ValueTree
behind order.OuterFirst v = []
behind order.InnerFirst v = v ∷ []

-- a part and those inside it
abbrev pub around : Order → ValueTree → List ValueTree → List ValueTree
around o v inside = before o v ++ (inside ++ behind o v)

-- Every part of a tree, the tree itself among them, as often as it stands there. The parts of one constructor come
-- in the order of its arguments.
""" + family(lambda c: f"{fn_of(c)}_parts", lambda c: 'Order → List ValueTree', case, ' o', '[]', 'field_parts f o ++ fields_parts fs o')


def conjuncts(kinds, ns):
    """The tests of a shape that fits, each with the argument that it is of."""
    out = []
    for kind, n in zip(kinds, ns):
        c = core(kind)
        if c in 'nk':
            out.append((f"is_some (slice_get p.{'names' if c == 'n' else 'marks'} {n})", None))
        elif c == 'L':
            out.append((f"is_some (slice_get p.lists {n})", None))
            out.append((f"are_fields ts (the_list (slice_get p.lists {n}))", n))
        elif is_part(kind):
            out.append((f"{IS[c]} (slice_get ts {n})", n))
    return out


def fact(tests, index):
    """The proof of one test from the proof h of all, which are joined to the left."""
    def left(upto):
        return f"({' && '.join(f'({t})' for t, _ in tests[:upto])})" if upto > 1 else f"({tests[0][0]})"
    proof, upto = 'h', len(tests)
    while upto > 1:
        if index == upto - 1:
            return f"(both-right {left(upto - 1)} ({tests[upto - 1][0]}) {proof})"
        proof = f"(both-left {left(upto - 1)} ({tests[upto - 1][0]}) {proof})"
        upto -= 1
    return proof


def shape_line(code, ctor, variant, kinds):
    ns = names(kinds)
    tests = conjuncts(kinds, ns)
    index = {n: i for i, (_, n) in enumerate(tests) if n}
    left, right, facts, own = [], [], [], []
    for kind, n in zip(kinds, ns):
        c = core(kind)
        if c == 'L':
            left.append(f"(fields_parts (fields_at ts (the_list (slice_get p.lists {n}))) o)")
            right.append(f"(all_parts o ts (the_list (slice_get p.lists {n})))")
            facts.append(f"(fields-listed o ts (the_list (slice_get p.lists {n})) {fact(tests, index[n])})")
        elif c == 'V':
            left.append(f"(value_parts (the_value (slice_get ts {n})) o)")
            right.append(left[-1])
            facts.append('refl')
            own.append(n)
        elif is_part(kind):
            left.append(f"({fn_of(c)}_parts ({THE[c]} (slice_get ts {n})) o)")
            right.append(f"(value_parts (the_value (slice_get ts {n})) o)")
            facts.append(f"({SORT[c]}-listed o (slice_get ts {n}) {fact(tests, index[n])})")
            own.append(n)
    head = f"  parts-shape {apply('s.' + variant, ns)} h = "
    if not left:
        return head + 'refl'
    inside = f"{['one', 'two', 'three'][len(left) - 1]}-listed {' '.join(left + right + facts)}"
    if any(core(k) == 'L' for k in kinds):
        inside += f" ∙ sym (all_parts-append o ts (the_list (slice_get p.lists {ns[0]})) ({list_of(own)}))"
    return head + f"ap (around o (shape_tree p ts {apply('s.' + variant, ns)})) ({inside})"


def listings():
    out = ["""-- Written by tools/parts.py.
-- The parts of a shape's tree are the tree and the parts of its parts.
use Rattle.std.proofs.Common.{◌≡◌, refl, sym, ap, ◌∙◌, ℕ, true, ◌&&◌, List, [], ◌∷◌, ◌++◌, slice_get, Option, Some, is_some}
use Rattle.std.proofs.lemmas.Bool.{true≢false}
use Rattle.std.proofs.lemmas.List.{append-nil, append_assoc}
use Rattle.jh_form.specs.Tree.{ValueTree, of_object, of_number, of_truth, of_set, of_field}
use Rattle.jh_form.proofs.ClosedLemmas.{both-left, both-right}
use Rattle.jh_arena.specs.table.Entries.{Pools, the_list, is_object, is_number, is_truth, is_set, is_field, the_object, the_number, the_truth, the_set, the_field, the_value, are_fields, fields_at}
use Rattle.jh_arena.specs.table.Nodes.{fits, shape_tree}
use Rattle.jh_arena.specs.table.Parts.{parts, own_parts, list_parts}
use Rattle.jh_arena.specs.declared.table.shapes.Shape.{Shape}
use Rattle.jh_arena.specs.declared.table.shapes.Shape.TheVariants as s
use Rattle.jh_normal_forms.specs.declared.parts.order.Order.{Order}
use Rattle.jh_normal_forms.specs.parts.Standing.{around, term_parts, int_parts, set_parts, field_parts, value_parts, formula_parts, fields_parts}
use Rattle.jh_normal_forms.specs.parts.Collected.{all_parts}

one-listed : (a va : List ValueTree) → a ≡ va → a ≡ va ++ []
one-listed a va e = e ∙ sym (append-nil va)

two-listed : (a b va vb : List ValueTree) → a ≡ va → b ≡ vb → a ++ b ≡ va ++ (vb ++ [])
two-listed a b va vb e f = (λ i. e i ++ f i) ∙ ap (λ z. va ++ z) (sym (append-nil vb))

three-listed : (a b c va vb vc : List ValueTree) → a ≡ va → b ≡ vb → c ≡ vc → a ++ (b ++ c) ≡ va ++ (vb ++ (vc ++ []))
three-listed a b c va vb vc e f g = (λ i. e i ++ (f i ++ g i)) ∙ ap (λ z. va ++ (vb ++ z)) (sym (append-nil vc))

pub all_parts-append : (o : Order) (ts : List ValueTree) (xs ys : List ℕ) → all_parts o ts (xs ++ ys) ≡ all_parts o ts xs ++ all_parts o ts ys
all_parts-append o ts [] ys = refl
all_parts-append o ts (x ∷ xs) ys =
    ap (λ z. value_parts (the_value (slice_get ts x)) o ++ z) (all_parts-append o ts xs ys)
    ∙ sym (append_assoc (value_parts (the_value (slice_get ts x)) o) (all_parts o ts xs) (all_parts o ts ys))
"""]
    for c in 'TIPSF':
        sort, fn = SORT[c], fn_of(c)
        out.append(f"""{sort}-listed : (o : Order) (v : Option ValueTree) → is_{sort} v ≡ true → {fn}_parts (the_{sort} v) o ≡ value_parts (the_value v) o
unfolding is_{sort} the_{sort} the_value value_parts
{sort}-listed o (Some (of_{sort} a)) h = refl
{sort}-listed o _ h = absurd (true≢false (sym h))
""")
    out.append("""fields-listed : (o : Order) (ts : List ValueTree) (ns : List ℕ) → are_fields ts ns ≡ true → fields_parts (fields_at ts ns) o ≡ all_parts o ts ns
unfolding are_fields fields_at fields_parts
fields-listed o ts [] h = refl
fields-listed o ts (n ∷ ns) h = λ i.
    field-listed o (slice_get ts n) (both-left (is_field (slice_get ts n)) (are_fields ts ns) h) i
    ++ fields-listed o ts ns (both-right (is_field (slice_get ts n)) (are_fields ts ns) h) i

module _ (p : Pools) (ts : List ValueTree) (o : Order) where
  pub parts-shape : (x : Shape) → fits p ts x ≡ true → value_parts (shape_tree p ts x) o ≡ around o (shape_tree p ts x) (all_parts o ts (parts p.lists x))
  unfolding fits shape_tree list_parts own_parts term_parts int_parts set_parts field_parts value_parts formula_parts""")
    out += [shape_line(*shape) for shape in shapes()]
    return '\n'.join(out) + '\n'


if __name__ == '__main__':
    root = os.path.join(os.path.dirname(os.path.abspath(__file__)), '..', 'crates', 'jh_normal_forms')
    for path, text in (('specs/parts/Standing.antt', standing()), ('proofs/parts/Listings.antt', listings())):
        with open(os.path.join(root, path), 'w') as out:
            out.write(text)
