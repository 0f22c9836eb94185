#!/usr/bin/env python3
"""Writes what a shape is over the carried parts, one line for each shape, from the table of forms.py."""
import os
import sys
sys.path.insert(0, __file__.rsplit('/', 1)[0])
from forms import core, is_part
from table import IS, THE, THE_POOL, WRAP, apply, has_list, names, shapes

HEAD = """-- Written by tools/carry.py.
-- A shape over the carried parts is the tree that it was over the parts.
use Rattle.std.proofs.Common.{◌≡◌, refl, sym, ap, ◌∙◌, ℕ, Bool, true, false, ◌&&◌, List, [], ◌∷◌, slice_get, slice_index, Some, is_some}
use Rattle.std.proofs.lemmas.Bool.{true≢false}
use Rattle.jh_form.specs.Tree.{ValueTree, of_object, of_number, of_truth, of_set, of_field, more}
use Rattle.jh_form.specs.Tree as t
use Rattle.jh_arena.specs.table.Entries.{Pools, the_name, the_mark, the_list, is_object, is_number, is_truth, is_set, is_field, the_object, the_number, the_truth, the_set, the_field, the_value, are_fields, fields_at}
use Rattle.jh_arena.specs.table.Nodes.{fits, shape_tree}
use Rattle.jh_arena.specs.table.Parts.{own_parts, list_parts, has_list, put}
use Rattle.jh_arena.specs.declared.table.shapes.Shape.{Shape}
use Rattle.jh_arena.specs.declared.table.shapes.Shape.TheVariants as s
use Rattle.jh_import.specs.carrying.Carried.{AllCarried, HasEntry, renamed}

without-two : (a b : Bool) → (a && b) ≡ true → (true && b) ≡ true
without-two true b h = h
without-two false b h = absurd (true≢false (sym h))

without-four : (a b c d : Bool) → (((a && b) && c) && d) ≡ true → (((true && b) && c) && d) ≡ true
without-four true b c d h = h
without-four false b c d h = absurd (true≢false (sym h))

module _ (ts us : List ValueTree) where
  first : (a : ℕ) (ps rs : List ℕ) → AllCarried ts us (a ∷ ps) rs → slice_get us (slice_index rs 0) ≡ slice_get ts a
  first a ps [] h = absurd h
  first a ps (n ∷ rs) h = h.0.is

  second : (a b : ℕ) (ps rs : List ℕ) → AllCarried ts us (a ∷ b ∷ ps) rs → slice_get us (slice_index rs 1) ≡ slice_get ts b
  second a b ps [] h = absurd h
  second a b ps (n ∷ rs) h = first b ps rs h.1

  third : (a b c : ℕ) (ps rs : List ℕ) → AllCarried ts us (a ∷ b ∷ c ∷ ps) rs → slice_get us (slice_index rs 2) ≡ slice_get ts c
  third a b c ps [] h = absurd h
  third a b c ps (n ∷ rs) h = second b c ps rs h.1

  fields-fit : (ns fs : List ℕ) → AllCarried ts us ns fs → are_fields us fs ≡ are_fields ts ns
  unfolding are_fields
  fields-fit [] [] h = refl
  fields-fit [] (n ∷ fs) h = absurd h
  fields-fit (k ∷ ns) [] h = absurd h
  fields-fit (k ∷ ns) (n ∷ fs) h = λ i. is_field (h.0.is i) && fields-fit ns fs h.1 i

  fields-are : (ns fs : List ℕ) → AllCarried ts us ns fs → fields_at us fs ≡ fields_at ts ns
  unfolding fields_at
  fields-are [] [] h = refl
  fields-are [] (n ∷ fs) h = absurd h
  fields-are (k ∷ ns) [] h = absurd h
  fields-are (k ∷ ns) (n ∷ fs) h = λ i. more (the_field (h.0.is i)) (fields-are ns fs h.1 i)

"""

SIG = "(x : Shape) (own fields : List ℕ) → fits p ts x ≡ true → HasEntry p q number x → (has_list x ≡ true → slice_get q.lists list ≡ Some fields) → AllCarried ts us (list_parts p.lists x) fields → AllCarried ts us (own_parts x) own"
UNFOLDING = "  unfolding fits shape_tree own_parts list_parts has_list put renamed HasEntry the_list"


def paths(kinds, ns):
    """For each argument of a shape the path of what stands at it, or none where it is plain."""
    own = [n for k, n in zip(kinds, ns) if is_part(k) and core(k) != 'L']
    out = []
    for kind, n in zip(kinds, ns):
        c = core(kind)
        if c in 'nk':
            out.append('e i')
        elif c == 'L':
            out.append(None)
        elif is_part(kind):
            at = own.index(n)
            out.append(f"{['first', 'second', 'third'][at]} ts us {' '.join(own[:at + 1])} ({' ∷ '.join(own[at + 1:] + ['[]'])}) own os i")
        else:
            out.append(None)
    return out


def left(items):
    """Tests joined to the left."""
    text = items[0]
    for item in items[1:]:
        text = f"({text} && {item})" if item is not items[-1] else f"{text} && {item}"
    return text


def fits_line(code, ctor, variant, kinds):
    ns = names(kinds)
    head = f"  placed-fits {apply('s.' + variant, ns)} own fields h e listed fs os = "
    tests = []
    for kind, n, path in zip(kinds, ns, paths(kinds, ns)):
        c = core(kind)
        if c in 'nk':
            tests.append(f"is_some ({path})")
        elif c == 'L':
            tests.append("is_some (listed refl i)")
            tests.append(f"(ap (λ o. are_fields us (the_list o)) (listed refl) ∙ fields-fit ts us (the_list (slice_get p.lists {n})) fields fs) i")
        elif is_part(kind):
            tests.append(f"{IS[c]} ({path})")
    if not tests:
        return head + 'h'
    line = f"(λ i. {left(tests)})"
    if not has_list(kinds):
        return head + line + ' ∙ h'
    n = ns[0]
    old = [f"(is_some (slice_get p.lists {n}))", f"(are_fields ts (the_list (slice_get p.lists {n})))"] + [f"({IS[core(k)]} (slice_get ts {m}))" for k, m in zip(kinds, ns) if is_part(k) and core(k) != 'L']
    return head + line + f" ∙ {'without-four' if len(old) == 4 else 'without-two'} {' '.join(old)} h"


def tree_line(code, ctor, variant, kinds):
    ns = names(kinds)
    head = f"  placed-tree {apply('s.' + variant, ns)} own fields h e listed fs os = "
    args, moved = [], False
    for kind, n, path in zip(kinds, ns, paths(kinds, ns)):
        c = core(kind)
        if c in 'nk':
            args.append(f"({THE_POOL[c]} ({path}))")
        elif c == 'L':
            args.append(f"((ap (λ o. fields_at us (the_list o)) (listed refl) ∙ fields-are ts us (the_list (slice_get p.lists {n})) fields fs) i)")
        elif is_part(kind):
            args.append(f"({THE[c]} ({path}))")
        else:
            args.append(n)
            continue
        moved = True
    return head + (f"λ i. {WRAP[code]} {apply('t.' + ctor, args)}" if moved else 'refl')


def placements():
    out = [HEAD + "module _ (p q : Pools) (ts us : List ValueTree) (number list : ℕ) where"]
    out.append(f"  pub placed-fits : {SIG} → fits q us (put list own (renamed number x)) ≡ true\n{UNFOLDING}")
    out += [fits_line(*shape) for shape in shapes()]
    out.append(f"\n  pub placed-tree : {SIG} → shape_tree q us (put list own (renamed number x)) ≡ shape_tree p ts x\n{UNFOLDING}")
    out += [tree_line(*shape) for shape in shapes()]
    return '\n'.join(out) + '\n'


if __name__ == '__main__':
    root = os.path.join(os.path.dirname(os.path.abspath(__file__)), '..', 'crates', 'jh_import')
    with open(os.path.join(root, 'proofs/carrying/Placements.antt'), 'w') as out:
        out.write(placements())
