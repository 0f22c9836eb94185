#!/usr/bin/env python3
"""Writes the rote lemmas on walks over a table, one for each shape."""
import os
import sys

sys.path.insert(0, os.path.dirname(os.path.abspath(__file__)))
from forms import (MEANING_USES, ORDER, TREES, TYPES, VALUE, apply, core, family, fn_of, is_part, mapped_case,  # noqa: E402
                   meaning_lemma, names, tree_type)

SORT = {'T': 'object', 'I': 'number', 'S': 'set', 'F': 'field', 'P': 'truth'}
MAPPED = {'T': 'term', 'I': 'int', 'S': 'set', 'F': 'field', 'P': 'formula'}
SHAPE = {'true_formula': 'True', 'false_formula': 'False'}
HERE = os.path.join(os.path.dirname(os.path.abspath(__file__)), '..', 'crates', 'jh_substitution')


REWRITTEN = 'rewritten_term rewritten_int rewritten_set rewritten_field rewritten_value rewritten_formula'
OR = 'object_or number_or truth_or set_or field_or'


def shape_name(ctor):
    return SHAPE.get(ctor) or ''.join(word.capitalize() for word in ctor.split('_'))


def shapes():
    """(shape, sort, constructor, [(kind, variable)])"""
    for code in 'TISFP':
        for _, ctor, kinds in TYPES[code][3]:
            parts = iter('abc')
            yield shape_name(ctor), SORT[code], ctor, [
                (kind[0], {'u': 'k', 'n': 'x', 'z': 'z', 'k': 'm', 'L': 'f'}.get(kind[0]) or next(parts), kind.endswith('+'))
                for kind in kinds]


def applied(head, words):
    return f"({head} {' '.join(words)})" if words else head


def is_leaf(ctor):
    return ctor == 'bound' or ctor.startswith('free_')


def test(kind, var):
    """The test of `fits` for a part of a shape, as a term."""
    if kind == 'V':
        return f"is_some (slice_get ts {var})"
    return f"is_{SORT[kind]} (slice_get ts {var})"


def conjuncts(args):
    out = []
    for kind, var, _ in args:
        if kind == 'L':
            out += ['is_some (slice_get p.lists f)', 'are_fields ts (the_list (slice_get p.lists f))']
        elif kind == 'k':
            out.append('is_some (slice_get p.marks m)')
        elif kind.isupper():
            out.append(test(kind, var))
    return out


def fact(tests, index):
    """The proof from h : (t0 && t1) && .. ≡ true that the test of this index passes."""
    def go(upto):
        return f"({tests[0]})" if upto == 0 else f"({go(upto - 1)} && {tests[upto]})"
    proof = 'h'
    last = len(tests) - 1
    while last > index:
        proof = f"(both-left {go(last - 1)} ({tests[last]}) {proof})"
        last -= 1
    if index > 0:
        proof = f"(both-right {go(index - 1)} ({tests[index]}) {proof})"
    return proof


def remake(name, sort, ctor, args):
    own = [(kind, var) for kind, var, _ in args if kind.isupper() and kind != 'L']
    tests = conjuncts(args)
    e = 'e' if any(bound for _, _, bound in args) else 'd'
    depth = '(d + 1)' if any(bound for _, _, bound in args) else 'd'
    has_list = any(kind == 'L' for kind, _, _ in args)
    variables = [var for _, var, _ in args]
    types = {'u': 'ℕ', 'z': 'ℤ'}
    binders = ' '.join(f"({var} : {types.get(kind, 'ℕ')})" for kind, var, _ in args)
    own_list = ' ∷ '.join([var for _, var in own] + ['[]'])
    new = []
    index = 0
    for kind, var, _ in args:
        if kind == 'L':
            new.append('n')
        elif kind.isupper():
            new.append(f"(slice_index rs {index})")
            index += 1
        else:
            new.append(var)
    whole = f"shape_tree p ts {applied('s.' + name, variables)}"
    premises = [f"l.whole_at ({whole}) d ≡ None", f"fits p ts {applied('s.' + name, variables)} ≡ true"]
    names = ['alone', 'h']
    if has_list:
        premises += ["slice_get q.lists n ≡ Some fs", f"AllRewritten l ts {depth} (the_list (slice_get p.lists f)) fs"]
        names += ['g', 'u']
    if own:
        premises.append(f"AllRewritten l ts {depth} ({own_list}) rs")
        names.append('w')
    extra = (' (rs : List ℕ)' if own else '') + (' (fs : List ℕ)' if has_list else '')
    extra_names = (['rs'] if own else []) + (['fs'] if has_list else [])
    sig = f"  remade-{name} : {binders}{extra}{' → ' if binders or extra else ''}{' → '.join(premises)} → Remade p q ts l d {applied('s.' + name, variables)} {applied('s.' + name, new)}"
    sig = sig.replace(' :  →', ' :').replace(': (', ': (')
    head = f"  remade-{name} {' '.join(variables + extra_names + names)}".rstrip()
    lines = []
    fits, tree = [], []
    index = 0
    place = ['first', 'second', 'third']
    position = 0
    for kind, var, _ in args:
        if kind == 'L':
            lines.append(f"let u1 = {fact(tests, position + 1)} in")
            fits += ["ap is_some g", f"fields-fit q ts l {depth} n fs (the_list (slice_get p.lists f)) g u u1"]
            tree.append(f"fields-are q ts l {depth} n fs (the_list (slice_get p.lists f)) g u u1 i")
            position += 2
        elif kind == 'k':
            lines.append(f"let marked : slice_get q.marks m ≡ slice_get p.marks m = grown p.marks q.marks m marks {fact(tests, position)} in")
            fits.append(f"(ap is_some marked ∙ {fact(tests, position)})")
            tree.append("the_mark (marked i)")
            position += 1
        elif kind.isupper():
            rest = ' ∷ '.join([v for _, v in own[index + 1:]] + ['[]'])
            before = ' '.join(v for _, v in own[:index + 1])
            lines.append(f"let {var}1 = {place[index]}-rewritten ts l {depth} {before} ({rest}) rs w in")
            lines.append(f"let {var}2 = {fact(tests, position)} in")
            if kind == 'V':
                fits.append(f"rewritten-there l ts {var} {depth} (slice_index rs {index}) {var}1")
                tree.append(f"value-is l ts {var} {depth} (slice_index rs {index}) {var}1 i")
            else:
                fits.append(f"{SORT[kind]}-fits l ts {var} {depth} (slice_index rs {index}) {var}1 {var}2")
                tree.append(f"{SORT[kind]}-is l ts {var} {depth} (slice_index rs {index}) {var}1 {var}2 i")
            index += 1
            position += 1
        else:
            tree.append(var)
    proof = fits[0] if fits else 'refl'
    if len(fits) > 1:
        proof = f"({fits[0]})"
        for more in fits[1:]:
            proof = f"(both_true {proof} ({more}))"
    value = {'object': 'of_object', 'number': 'of_number', 'set': 'of_set', 'field': 'of_field', 'truth': 'of_truth'}[sort]
    made = applied(f"t.{ctor}", [f'({t})' if ' ' in t else t for t in tree])
    path = f"λ i. {value} ({sort}_or (sym alone i) {made})"
    body = '\n      '.join(lines + [f"record {{ fits = {proof}; is = {path} }}"])
    return sig, f"{head} =\n      {body}"


HEAD = """-- A shape with the answers for its parts in their places is the rewritten shape.
use Rattle.std.proofs.Common.{◌≡◌, refl, sym, ap, ◌∙◌, ℕ, ◌+◌, Bool, true, false, ◌&&◌, List, [], ◌∷◌, length, slice_get, slice_index, Option, Some, None, is_some, ℤ}
use Rattle.std.proofs.lemmas.Bool.{true≢false}
use Rattle.std.specs.Cmp.Derive.{both_true}
use Rattle.jh_form.specs.Tree.{ValueTree, of_object, of_number, of_truth, of_set, of_field}
use Rattle.jh_form.specs.Tree as t
use Rattle.jh_form.proofs.ClosedLemmas.{both-left, both-right}
use Rattle.jh_substitution.specs.rewriting.Rewritten.{Rewriting, object_or, number_or, truth_or, set_or, field_or, rewritten_term, rewritten_int, rewritten_set, rewritten_field, rewritten_value, rewritten_formula, rewritten_fields}
use Rattle.jh_arena.specs.table.Entries.{Pools, the_list, the_mark, is_object, is_number, is_truth, is_set, is_field, the_object, the_number, the_truth, the_set, the_field, the_value, are_fields, fields_at}
use Rattle.jh_arena.specs.table.Growth.{Grows}
use Rattle.jh_arena.specs.table.Nodes.{fits, shape_tree}
use Rattle.jh_arena.specs.table.Parts.{own_parts, list_parts, has_list, binders, put}
use Rattle.jh_arena.specs.declared.table.shapes.Shape.{Shape}
use Rattle.jh_arena.specs.declared.table.shapes.Shape.TheVariants as s
use Rattle.jh_substitution.specs.rewriting.Leaf.{is_leaf}
use Rattle.jh_substitution.specs.rewriting.Walks.{IsRewritten, AllRewritten}
use Rattle.jh_substitution.specs.rewriting.Staying.{grown}
use Rattle.jh_substitution.proofs.rewriting.Rewritings.{rewritten-there}
use Rattle.jh_substitution.proofs.rewriting.PartRewritings.{Remade, first-rewritten, second-rewritten, third-rewritten, object-fits, object-is, number-fits, number-is, truth-fits, truth-is, set-fits, set-is, field-fits, field-is, value-is, fields-fit, fields-are, plain}

module _ (p q : Pools) (ts : List ValueTree) (l : Rewriting) (d : ℕ) (n : ℕ) (marks : Grows p.marks q.marks) where
"""


def remakes():
    out = [HEAD]
    cases = []
    for name, sort, ctor, args in shapes():
        variables = [var for _, var, _ in args]
        pattern = applied('s.' + name, variables)
        if is_leaf(ctor):
            cases.append(f"  remade {pattern} rs fs leaf alone h g u w = absurd (true≢false leaf)")
            continue
        sig, proof = remake(name, sort, ctor, args)
        out.append(sig)
        out.append(f"  unfolding fits shape_tree {REWRITTEN} {OR}")
        out.append(proof)
        out.append('')
        own = [var for kind, var, _ in args if kind.isupper() and kind != 'L']
        has_list = any(kind == 'L' for kind, _, _ in args)
        bound = any(b for _, _, b in args)
        w = 'w' if bound else f"(plain ts l d ({' ∷ '.join(own + ['[]'])}) rs w)"
        words = variables + (['rs'] if own else []) + (['fs'] if has_list else []) + ['alone', 'h'] + (['(g refl)', '(plain ts l d (the_list (slice_get p.lists f)) fs u)'] if has_list else []) + ([w] if own else [])
        cases.append(f"  remade {pattern} rs fs leaf alone h g u w = remade-{name} {' '.join(words)}")
    out.append("""  pub remade : (x : Shape) (rs fs : List ℕ) → is_leaf x ≡ false → l.whole_at (shape_tree p ts x) d ≡ None → fits p ts x ≡ true →
      (has_list x ≡ true → slice_get q.lists n ≡ Some fs) →
      AllRewritten l ts (d + binders x) (list_parts p.lists x) fs → AllRewritten l ts (d + binders x) (own_parts x) rs →
      Remade p q ts l d x (put n rs x)
  unfolding is_leaf has_list binders list_parts own_parts put""")
    out += cases
    return '\n'.join(out) + '\n'


PARTS = """-- What the answers for the parts of a shape say.
use Rattle.std.proofs.Common.{◌≡◌, refl, sym, ap, subst, add-zero, ◌∙◌, ℕ, ◌+◌, Bool, true, false, ◌&&◌, List, [], ◌∷◌, ◌++◌, length, slice_get, slice_index, Option, Some, None, is_some, option_map, arith, length-append}
use Rattle.std.proofs.lemmas.Bool.{true≢false}
use Rattle.std.specs.Cmp.Derive.{both_true}
use Rattle.jh_form.specs.Tree.{ValueTree, of_object, of_number, of_truth, of_set, of_field, none, more}
use Rattle.jh_form.proofs.ClosedLemmas.{both-left, both-right}
use Rattle.jh_substitution.specs.rewriting.Rewritten.{Rewriting, rewritten_term, rewritten_int, rewritten_set, rewritten_field, rewritten_value, rewritten_formula, rewritten_fields}
use Rattle.jh_arena.specs.table.Entries.{Pools, the_list, is_object, is_number, is_truth, is_set, is_field, the_object, the_number, the_truth, the_set, the_field, the_value, are_fields, fields_at}
use Rattle.jh_arena.specs.table.Nodes.{fits, shape_tree}
use Rattle.jh_arena.specs.declared.table.shapes.Shape.{Shape}
use Rattle.jh_substitution.specs.rewriting.Walks.{IsRewritten, AllRewritten}
use Rattle.jh_substitution.proofs.rewriting.Rewritings.{rewritten-there}

-- the new shape fits, and is the old one rewritten
pub record Remade (p q : Pools) (ts : List ValueTree) (l : Rewriting) (d : ℕ) (old new : Shape) : Type 0 where
  pub fits : fits q ts new ≡ true
  pub is : shape_tree q ts new ≡ rewritten_value (shape_tree p ts old) l d

pub first-rewritten : (ts : List ValueTree) (l : Rewriting) (d a : ℕ) (ps rs : List ℕ) → AllRewritten l ts d (a ∷ ps) rs → IsRewritten l ts a d (slice_index rs 0)
first-rewritten ts l d a ps [] h = absurd h
first-rewritten ts l d a ps (r ∷ rs) h = h.0

pub second-rewritten : (ts : List ValueTree) (l : Rewriting) (d a b : ℕ) (ps rs : List ℕ) → AllRewritten l ts d (a ∷ b ∷ ps) rs → IsRewritten l ts b d (slice_index rs 1)
second-rewritten ts l d a b ps [] h = absurd h
second-rewritten ts l d a b ps (r ∷ rs) h = first-rewritten ts l d b ps rs h.1

pub third-rewritten : (ts : List ValueTree) (l : Rewriting) (d a b c : ℕ) (ps rs : List ℕ) → AllRewritten l ts d (a ∷ b ∷ c ∷ ps) rs → IsRewritten l ts c d (slice_index rs 2)
third-rewritten ts l d a b c ps [] h = absurd h
third-rewritten ts l d a b c ps (r ∷ rs) h = second-rewritten ts l d b c ps rs h.1

"""


def sort_lemmas():
    out = [PARTS]
    for code in 'TIPSF':
        sort, mapped = SORT[code], MAPPED[code]
        out.append(f"""{sort}-fits_of : (l : Rewriting) (d : ℕ) (o n : Option ValueTree) → n ≡ option_map (λ v. rewritten_value v l d) o → is_{sort} o ≡ true → is_{sort} n ≡ true
unfolding is_{sort} rewritten_value
{sort}-fits_of l d (Some (of_{sort} a)) n e h = ap is_{sort} e
{sort}-fits_of l d _ n e h = absurd (true≢false (sym h))

pub {sort}-fits : (l : Rewriting) (ts : List ValueTree) (k d r : ℕ) → IsRewritten l ts k d r → is_{sort} (slice_get ts k) ≡ true → is_{sort} (slice_get ts r) ≡ true
{sort}-fits l ts k d r m h = {sort}-fits_of l d (slice_get ts k) (slice_get ts r) m.is h

{sort}-is_of : (l : Rewriting) (d : ℕ) (o n : Option ValueTree) → n ≡ option_map (λ v. rewritten_value v l d) o → is_{sort} o ≡ true → the_{sort} n ≡ rewritten_{mapped} (the_{sort} o) l d
unfolding is_{sort} the_{sort} rewritten_value
{sort}-is_of l d (Some (of_{sort} a)) n e h = ap the_{sort} e
{sort}-is_of l d _ n e h = absurd (true≢false (sym h))

pub {sort}-is : (l : Rewriting) (ts : List ValueTree) (k d r : ℕ) → IsRewritten l ts k d r → is_{sort} (slice_get ts k) ≡ true → the_{sort} (slice_get ts r) ≡ rewritten_{mapped} (the_{sort} (slice_get ts k)) l d
{sort}-is l ts k d r m h = {sort}-is_of l d (slice_get ts k) (slice_get ts r) m.is h
""")
    out.append("""-- no binders more
pub plain : (ts : List ValueTree) (l : Rewriting) (d : ℕ) (ps rs : List ℕ) → AllRewritten l ts (d + 0) ps rs → AllRewritten l ts d ps rs
plain ts l d ps rs h = subst (λ (q : ℕ). AllRewritten l ts q ps rs) (add-zero d) h

value-is_of : (l : Rewriting) (d : ℕ) (o n : Option ValueTree) → n ≡ option_map (λ v. rewritten_value v l d) o → is_some o ≡ true → the_value n ≡ rewritten_value (the_value o) l d
unfolding the_value
value-is_of l d (Some a) n e h = ap the_value e
value-is_of l d None n e h = absurd (true≢false (sym h))

pub value-is : (l : Rewriting) (ts : List ValueTree) (k d r : ℕ) → IsRewritten l ts k d r → the_value (slice_get ts r) ≡ rewritten_value (the_value (slice_get ts k)) l d
value-is l ts k d r m = value-is_of l d (slice_get ts k) (slice_get ts r) m.is m.there

all-fit : (ts : List ValueTree) (l : Rewriting) (d : ℕ) (ps rs : List ℕ) → AllRewritten l ts d ps rs → are_fields ts ps ≡ true → are_fields ts rs ≡ true
unfolding are_fields
all-fit ts l d [] [] u h = refl
all-fit ts l d [] (r ∷ rs) u h = absurd u
all-fit ts l d (p ∷ ps) [] u h = absurd u
all-fit ts l d (p ∷ ps) (r ∷ rs) u h =
    both_true
    (field-fits l ts p d r u.0 (both-left (is_field (slice_get ts p)) (are_fields ts ps) h))
    (all-fit ts l d ps rs u.1 (both-right (is_field (slice_get ts p)) (are_fields ts ps) h))

all-are : (ts : List ValueTree) (l : Rewriting) (d : ℕ) (ps rs : List ℕ) → AllRewritten l ts d ps rs → are_fields ts ps ≡ true → fields_at ts rs ≡ rewritten_fields (fields_at ts ps) l d
unfolding are_fields fields_at rewritten_fields
all-are ts l d [] [] u h = refl
all-are ts l d [] (r ∷ rs) u h = absurd u
all-are ts l d (p ∷ ps) [] u h = absurd u
all-are ts l d (p ∷ ps) (r ∷ rs) u h = λ i.
    more
    (field-is l ts p d r u.0 (both-left (is_field (slice_get ts p)) (are_fields ts ps) h) i)
    (all-are ts l d ps rs u.1 (both-right (is_field (slice_get ts p)) (are_fields ts ps) h) i)

-- the answers for a list of fields, which has the number n
pub fields-fit : (q : Pools) (ts : List ValueTree) (l : Rewriting) (d n : ℕ) (fs ps : List ℕ) → slice_get q.lists n ≡ Some fs →
    AllRewritten l ts d ps fs → are_fields ts ps ≡ true → are_fields ts (the_list (slice_get q.lists n)) ≡ true
unfolding the_list
fields-fit q ts l d n fs ps g u h = ap (λ o. are_fields ts (the_list o)) g ∙ all-fit ts l d ps fs u h

pub fields-are : (q : Pools) (ts : List ValueTree) (l : Rewriting) (d n : ℕ) (fs ps : List ℕ) → slice_get q.lists n ≡ Some fs →
    AllRewritten l ts d ps fs → are_fields ts ps ≡ true → fields_at ts (the_list (slice_get q.lists n)) ≡ rewritten_fields (fields_at ts ps) l d
unfolding the_list
fields-are q ts l d n fs ps g u h = ap (λ o. fields_at ts (the_list o)) g ∙ all-are ts l d ps fs u h

-- the answers for parts that stand one list after the other
pub all-split : (ts : List ValueTree) (l : Rewriting) (d : ℕ) (ps qs fs gs : List ℕ) → AllRewritten l ts d (ps ++ qs) (fs ++ gs) → length fs ≡ length ps →
    AllRewritten l ts d ps fs × AllRewritten l ts d qs gs
all-split ts l d [] qs [] gs h e = (tt, h)
all-split ts l d [] qs (f ∷ fs) gs h e = absurd (omega arith)
all-split ts l d (p ∷ ps) qs [] gs h e = absurd (omega arith)
all-split ts l d (p ∷ ps) qs (f ∷ fs) gs h e =
    let rest = all-split ts l d ps qs fs gs h.1 (omega arith) in
    ((h.0, rest.0), rest.1)
""")
    return '\n'.join(out)


PASSINGS = """-- The free names of a shape's tree pass a test: at a part that is no leaf exactly where those of its parts do, and at a leaf
-- where its own does.
use Rattle.std.proofs.Common.{◌≡◌, refl, sym, ap, ◌∙◌, ℕ, ◌<◌, Bool, true, false, ◌&&◌, List, length, slice_get, Option, Some, None, is_some}
use Rattle.std.proofs.lemmas.Bool.{true≢false}
use Rattle.std.proofs.lemmas.Option.{slice_get_within}
use Rattle.jh_name.specs.declared.naming.Name.{Name}
use Rattle.jh_name.specs.declared.place.Sort as place
use Rattle.jh_name.specs.declared.place.Sort.TheVariants as Sort
use Rattle.jh_form.specs.Tree.{ValueTree}
use Rattle.jh_form.specs.Passing.{term_passes, int_passes, set_passes, field_passes, value_passes, formula_passes}
use Rattle.jh_arena.specs.table.Entries.{Pools, the_name}
use Rattle.jh_arena.specs.table.Facing.{own_passes, all_pass}
use Rattle.jh_arena.specs.table.Nodes.{fits, shape_tree}
use Rattle.jh_arena.specs.table.Parts.{parts}
use Rattle.jh_arena.specs.declared.table.shapes.Shape.{Shape}
use Rattle.jh_arena.specs.declared.table.shapes.Shape.TheVariants as s
use Rattle.jh_arena.proofs.table.ShapePasses.{passes-shape}
use Rattle.jh_substitution.specs.rewriting.Leaf.{is_leaf}

some-name : (xs : List Name) (n : ℕ) (o : Option Name) → slice_get xs n ≡ o → is_some o ≡ true → n < length xs
some-name xs n (Some v) e h = slice_get_within xs n v e
some-name xs n None e h = absurd (true≢false (sym h))

name-within : (xs : List Name) (n : ℕ) → is_some (slice_get xs n) ≡ true → n < length xs
name-within xs n h = some-name xs n (slice_get xs n) refl h

own-passes : (p : Pools) (q : Name → place.Sort → Bool) (x : Shape) → is_leaf x ≡ false → own_passes p x q ≡ true
unfolding is_leaf own_passes
own-passes p q (s.FreeObject n) leaf = absurd (true≢false leaf)
own-passes p q (s.FreeNumber n) leaf = absurd (true≢false leaf)
own-passes p q (s.FreeTruth n) leaf = absurd (true≢false leaf)
own-passes p q (s.FreeSet n) leaf = absurd (true≢false leaf)
own-passes p q (s.FreeField n) leaf = absurd (true≢false leaf)
own-passes p q _ leaf = refl

module _ (p : Pools) (ts : List ValueTree) (q : Name → place.Sort → Bool) where
  pub passes-parts : (x : Shape) → is_leaf x ≡ false → fits p ts x ≡ true → value_passes (shape_tree p ts x) q ≡ all_pass q ts (parts p.lists x)
  passes-parts x leaf h = passes-shape p ts q x h ∙ ap (λ b. b && all_pass q ts (parts p.lists x)) (own-passes p q x leaf)

"""


def passings():
    out = [PASSINGS]
    for code, word in (('T', 'Obj'), ('I', 'Int'), ('P', 'Bool'), ('S', 'Set'), ('F', 'Field')):
        sort = SORT[code]
        shape = 'Free' + sort.capitalize()
        out.append(f"""  pub {sort}-named : (x : Shape) (n : ℕ) → x ≡ s.{shape} n → fits p ts x ≡ true → n < length p.names
  unfolding fits
  {sort}-named x n e h = name-within p.names n (ap (fits p ts) (sym e) ∙ h)

  pub {sort}-asked : (x : Shape) (n : ℕ) (y : Name) (r : Bool) → x ≡ s.{shape} n → slice_get p.names n ≡ Some y → r ≡ q y Sort.{word} → r ≡ value_passes (shape_tree p ts x) q
  unfolding shape_tree the_name {MAPPED[code]}_passes value_passes
  {sort}-asked x n y r e named asked = asked ∙ ap (λ o. q (the_name o) Sort.{word}) (sym named) ∙ ap (λ z. value_passes (shape_tree p ts z) q) (sym e)
""")
    frees = ['FreeObject', 'FreeNumber', 'FreeTruth', 'FreeSet', 'FreeField']
    premises = ' → '.join(f"((n : ℕ) → x ≡ s.{shape} n → ⊥)" for shape in frees)
    out.append(f"""  pub bound-asked : (x : Shape) → is_leaf x ≡ true → {premises} → true ≡ value_passes (shape_tree p ts x) q
  unfolding is_leaf shape_tree term_passes value_passes
  bound-asked (s.Bound k) leaf a b c d e = refl""")
    for shape, letter in zip(frees, 'abcde'):
        out.append(f"  bound-asked (s.{shape} n) leaf a b c d e = absurd ({letter} n refl)")
    out.append("  bound-asked _ leaf a b c d e = absurd (true≢false (sym leaf))")
    return ''.join(out[:1]) + '\n'.join(out[1:]) + '\n'


LEAF = {'free_object': 'object_at', 'free_number': 'number_at', 'free_set': 'set_at', 'free_field': 'field_at', 'free_truth': 'truth_at'}


def rewritten_of(code):
    return f"rewritten_{fn_of(code)}"


def inner(ctor, kinds, ns):
    """The part of a constructor with its own parts rewritten."""
    words = [f"({rewritten_of(core(kind))} {n} l {'(d + 1)' if kind.endswith('+') else 'd'})" if is_part(kind) else n
             for kind, n in zip(kinds, ns)]
    return apply(f"t.{ctor}", words)


def rewritten_case(code, ctor, kinds, ns):
    if ctor in LEAF:
        return f"l.leaves.{LEAF[ctor]} x d"
    if ctor == 'bound':
        return "l.leaves.bound_at k d"
    if code == 'V':
        return inner(ctor, kinds, ns)[1:-1]
    sort = SORT[code]
    return f"{sort}_or (l.whole_at (t.of_{sort} {apply('t.' + ctor, ns)}) d) {inner(ctor, kinds, ns)}"


def rewritten_file():
    out = [f"""-- A tree with each leaf exchanged for what a map of leaves gives for it, and some whole parts for what
-- stands for them.
use Rattle.std.specs.Prelude.{{◌≡◌, ℕ, ◌+◌, ◌≤◌, List, length, Option, Some, None}}
use Rattle.jh_form.specs.Tree.{{{TREES}}}
use Rattle.jh_form.specs.Tree as t
use Rattle.jh_form.specs.Meaning.{{Interp, datum}}
use Rattle.jh_boxed.specs.Mapped.{{LeafMap}}

-- What stands for each leaf and, where there is anything, for a whole part that is no leaf, at the number
-- of binders that were passed on the way to it. What is of another sort than the part doesn't count.
pub record Rewriting : Type 0 where
  pub leaves : LeafMap
  pub whole_at : ValueTree → ℕ → Option ValueTree

-- only leaves are exchanged
abbrev pub leaves_alone : LeafMap → Rewriting
leaves_alone l = record {{ leaves = l; whole_at = λ v d. None }}

-- What stands for a whole part means in m what the part means in n; the objects of the bound variables
-- are e after the rewriting, and `view d e` before it.
pub record KeepsWholes (l : Rewriting) (m n : Interp) (view : ℕ → List ℕ → List ℕ) : Type 0 where
  pub whole : (v w : ValueTree) (d : ℕ) (e : List ℕ) → d ≤ length e → l.whole_at v d ≡ Some w → datum w m e ≡ datum v n (view d e)

-- what stands for a whole part, or else the part given
"""]
    for code in 'TIPSF':
        sort, tree = SORT[code], tree_type(code)
        out.append(f"""unfoldable pub {sort}_or : Option ValueTree → {tree} → {tree}
{sort}_or (Some (t.of_{sort} a)) b = a
{sort}_or _ b = b

""")
    out.append(family(rewritten_of, lambda code: f"Rewriting → ℕ → {tree_type(code)}", rewritten_case, ' l d', 't.none',
                      't.more (rewritten_field f l d) (rewritten_fields fs l d)'))
    return ''.join(out)


def wholes_file():
    """Where only leaves are exchanged, a rewritten tree is the mapped one; and what a whole part becomes."""
    out = [f"""-- Where only leaves are exchanged, the rewritten tree is the mapped one; and a whole part becomes what
-- stands for it.
use Rattle.std.proofs.Common.{{◌≡◌, refl, sym, ap, ◌∙◌, ℕ, ℤ, ◌+◌, true, false, List, slice_get, Option, Some, None}}
use Rattle.std.proofs.lemmas.Bool.{{true≢false}}
use Rattle.jh_name.specs.declared.place.Sort.TheVariants as Sort
use Rattle.jh_form.specs.Tree.{{{TREES}, of_object, of_number, of_truth, of_set, of_field}}
use Rattle.jh_form.specs.Tree as t
use Rattle.jh_form.specs.Sorts.{{tree_sort}}
use Rattle.jh_boxed.specs.Mapped.{{LeafMap, {', '.join('mapped_' + fn_of(c) for c in ORDER + 'L')}}}
use Rattle.jh_arena.specs.table.Entries.{{Pools}}
use Rattle.jh_arena.specs.table.Nodes.{{shape_tree}}
use Rattle.jh_arena.specs.declared.table.shapes.Shape.{{Shape}}
use Rattle.jh_arena.specs.declared.table.shapes.Shape.TheVariants as s
use Rattle.jh_substitution.specs.rewriting.Leaf.{{is_leaf}}
use Rattle.jh_substitution.specs.rewriting.Rewritten.{{Rewriting, leaves_alone, {OR.replace(' ', ', ')}, {', '.join(rewritten_of(c) for c in ORDER + 'L')}}}

module _ (l : LeafMap) where
  mutual
    unfolding {' '.join(rewritten_of(c) for c in ORDER + 'L')} {OR} {' '.join('mapped_' + fn_of(c) for c in ORDER + 'L')}
"""]
    for code in ORDER:
        fn = fn_of(code)
        out.append(f"    pub {fn}-alone : (a : {tree_type(code)}) (d : ℕ) → rewritten_{fn} a (leaves_alone l) d ≡ mapped_{fn} a l d")
        for _, ctor, kinds in TYPES[code][3]:
            ns = names(kinds)
            words = [f"({fn_of(core(kind))}-alone {n} {'(d + 1)' if kind.endswith('+') else 'd'} i)" if is_part(kind) else n
                     for kind, n in zip(kinds, ns)]
            proof = f"λ i. t.{ctor} {' '.join(words)}" if any(is_part(k) for k in kinds) else 'refl'
            out.append(f"    {fn}-alone {apply('t.' + ctor, ns)} d = {proof}")
        out.append('')
    out.append("""    pub fields-alone : (fs : FieldTrees) (d : ℕ) → rewritten_fields fs (leaves_alone l) d ≡ mapped_fields fs l d
    fields-alone t.none d = refl
    fields-alone (t.more f fs) d = λ i. t.more (field-alone f d i) (fields-alone fs d i)
""")
    for code in 'TIPSF':
        sort, tree = SORT[code], tree_type(code)
        out.append(f"""pub {sort}-taken : (o : Option ValueTree) (y : ValueTree) (a : {tree}) → o ≡ Some y → tree_sort y ≡ Sort.{WORD[sort]} → of_{sort} ({sort}_or o a) ≡ y
unfolding {sort}_or""")
        for other in 'TIPSF':
            proof = f"ap (λ q. of_{sort} ({sort}_or q a)) e" if other == code else 'absurd (cc)'
            out.append(f"{sort}-taken o (of_{SORT[other]} b) a e same = {proof}")
        out.append('')
    out.append(f"""-- a whole part becomes what stands for it
pub whole-taken : (l : Rewriting) (p : Pools) (ts : List ValueTree) (d : ℕ) (x : Shape) (y : ValueTree) → is_leaf x ≡ false →
    l.whole_at (shape_tree p ts x) d ≡ Some y → tree_sort y ≡ tree_sort (shape_tree p ts x) → rewritten_value (shape_tree p ts x) l d ≡ y
unfolding is_leaf shape_tree {REWRITTEN}""")
    for name, sort, ctor, args in shapes():
        variables = [var for _, var, _ in args]
        head = f"whole-taken l p ts d {applied('s.' + name, variables)} y leaf e same"
        out.append(f"{head} = absurd (true≢false leaf)" if is_leaf(ctor) else f"{head} = {sort}-taken _ y _ e same")
    return '\n'.join(out) + '\n'


WORD = {'object': 'Obj', 'number': 'Int', 'truth': 'Bool', 'set': 'Set', 'field': 'Field'}
RANGE = {'object': 'ℕ', 'number': 'ℤ', 'truth': 'Bool', 'set': '(ℕ → Bool)', 'field': 'Fields'}
ZERO = {'object': '0', 'number': 'pos 0', 'truth': 'false', 'set': 'λ x. false'}


def rewriting_meanings():
    def leaf(code, ctor, kinds, ns):
        field = {'free_object': 'object', 'free_number': 'number', 'free_set': 'set', 'free_field': 'field', 'free_truth': 'truth'}.get(ctor)
        if field:
            return f"keeps.{field} x d e h"
        if ctor == 'bound':
            return "keeps.bound k d e h"
        return None
    leaf.args = 'd e h'
    leaf.split = lambda kinds, ns: {}

    def wrap(code, ctor, kinds, ns, proof):
        if code == 'V':
            return proof
        sort, tree = SORT[code], apply('t.' + ctor, ns)
        return (f"{sort}_or-means (l.whole_at (t.of_{sort} {tree}) d) {inner(ctor, kinds, ns)} m e ({VALUE[code]} {tree} n (view d e)) "
                f"(λ w q. wholes.whole (t.of_{sort} {tree}) w d e h q) ({proof})")
    part = lambda c, n, hyp: f"{VALUE[c]}-rewritten {n} d e h i"
    under = lambda c, n, hyp: f"({VALUE[c]}-rewritten {n} (d + 1) (x ∷ e) (deeper d e x h) ∙ ap (λ g. {VALUE[c]} {n} n g) (keeps.under d e x)) i"
    lines = meaning_lemma('rewritten', lambda c: f"(a : {tree_type(c)}) (d : ℕ) (e : List ℕ) → d ≤ length e → {VALUE[c]} (rewritten_{fn_of(c)} a l d) m e ≡ {VALUE[c]} a n (view d e)",
                          leaf, '(keeps.last i)', part, under, wrap)
    helpers = []
    for code in 'TIPSF':
        sort = SORT[code]
        datum = {'object': 'an_object', 'number': 'a_number', 'truth': 'a_truth', 'set': 'a_set', 'field': 'a_field'}[sort]
        helpers.append(f"""{sort}_of : Datum → {RANGE[sort]} → {RANGE[sort]}
{sort}_of ({datum} z) b = z
{sort}_of _ b = b

pub {sort}_or-means : (o : Option ValueTree) (plain : {tree_type(code)}) (m : Interp) (e : List ℕ) (b : {RANGE[sort]}) →
    ((w : ValueTree) → o ≡ Some w → datum w m e ≡ {datum} b) → {VALUE[code]} plain m e ≡ b → {VALUE[code]} ({sort}_or o plain) m e ≡ b
unfolding {sort}_or {sort}_of
{sort}_or-means None plain m e b h same = same""")
        for other in 'TIPSF':
            proof = f"ap (λ z. {sort}_of z b) (h (t.of_{sort} a) refl)" if other == code else 'same'
            helpers.append(f"{sort}_or-means (Some (t.of_{SORT[other]} a)) plain m e b h same = {proof}")
        helpers.append('')
    return f"""-- The meaning of a rewritten tree: where what stands for each leaf and each whole part keeps its meaning,
-- the whole does.
use Rattle.std.proofs.Common.{{◌≡◌, refl, ap, ◌∙◌, ℕ, suc, ◌+◌, ◌≤◌, ◌==◌, Bool, not, ◌&&◌, ◌||◌, List, [], ◌∷◌, length, ℤ, pos, ◌+ℤ◌, ◌-ℤ◌, ◌*ℤ◌, neg_ℤ, int_lt, int_le, Option, Some, None}}
use Rattle.std.specs.Ordering.{{int_eq}}
use Rattle.jh_form.specs.Tree.{{{TREES}}}
use Rattle.jh_form.specs.Tree as t
use Rattle.jh_form.specs.Meaning.{{{MEANING_USES}}}
use Rattle.jh_boxed.specs.Kept.{{Keeps}}
use Rattle.jh_boxed.proofs.Meanings.{{deeper}}
use Rattle.jh_substitution.specs.rewriting.Rewritten.{{Rewriting, KeepsWholes, {OR.replace(' ', ', ')}, {', '.join(rewritten_of(c) for c in ORDER + 'L')}}}

""" + '\n'.join(helpers) + f"""
module _ (l : Rewriting) (m n : Interp) (view : ℕ → List ℕ → List ℕ) (keeps : Keeps l.leaves m n view) (wholes : KeepsWholes l m n view) where
  mutual
    unfolding {' '.join(rewritten_of(c) for c in ORDER + 'L')}
""" + '\n'.join(('  ' + x if x else x) for x in lines) + """
    pub fields_value-rewritten : (fs : FieldTrees) (d : ℕ) (e : List ℕ) → d ≤ length e → fields_value (rewritten_fields fs l d) m e ≡ fields_value fs n (view d e)
    fields_value-rewritten t.none d e h = refl
    fields_value-rewritten (t.more f fs) d e h = λ i. field_value-rewritten f d e h i ∷ fields_value-rewritten fs d e h i
"""


def substitution():
    out = ["""-- The rules of a substitution, over a table.
use Rattle.std.proofs.Common.{◌≡◌, refl, sym, ap, ◌∙◌, subst, ℕ, Bool, true, false, if◌then◌else◌, List, slice_get, Option, Some, is_some}
use Rattle.std.proofs.lemmas.Bool.{true≢false}
use Rattle.jh_name.specs.declared.naming.Name.{Name}
use Rattle.jh_name.specs.declared.place.Sort.{Sort}
use Rattle.jh_form.specs.Tree.{ValueTree, of_object, of_number, of_truth, of_set, of_field}
use Rattle.jh_form.specs.Tree as t
use Rattle.jh_form.specs.Passing.{name_equal}
use Rattle.jh_form.proofs.Names.{name_equal-same, name_equal-true}
use Rattle.jh_substitution.specs.rewriting.Rewritten.{leaves_alone, rewritten_value, rewritten_term, rewritten_int, rewritten_set, rewritten_field, rewritten_formula}
use Rattle.jh_boxed_operations.specs.substitution.Substituted.{substituting}
use Rattle.jh_form.specs.Sorts.{tree_sort}
use Rattle.jh_arena.specs.table.Entries.{Pools, the_name}
use Rattle.jh_arena.specs.table.Nodes.{fits, shape_tree}
use Rattle.jh_arena.specs.declared.table.shapes.Shape.{Shape}
use Rattle.jh_arena.specs.declared.table.shapes.Shape.TheVariants as s
use Rattle.jh_substitution.specs.rewriting.Leaf.{is_leaf, free_shape, free_value}

-- where the test passes, and where the names differ
pub chosen : {X : Type 0} (x : Name) (a c : X) → (if name_equal x x then a else c) ≡ a
chosen x a c = ap (λ b. if b then a else c) (name_equal-same x x refl)

unless : {X : Type 0} (y x : Name) (a c : X) (b : Bool) → name_equal y x ≡ b → (y ≡ x → ⊥) → (if b then a else c) ≡ c
unless y x a c true e differs = absurd (differs (name_equal-true y x e))
unless y x a c false e differs = refl

pub other : {X : Type 0} (y x : Name) (a c : X) → (y ≡ x → ⊥) → (if name_equal y x then a else c) ≡ c
other y x a c differs = unless y x a c (name_equal y x) refl differs

-- the value stands for the name
pub free-exchanged : (x : Name) (v : ValueTree) (d : ℕ) → rewritten_value (free_value x v) (leaves_alone (substituting x v)) d ≡ v
unfolding rewritten_value rewritten_term rewritten_int rewritten_set rewritten_field rewritten_formula"""]
    values = [('object', 'FreeObject', 'free_object'), ('number', 'FreeNumber', 'free_number'), ('truth', 'FreeTruth', 'free_truth'), ('set', 'FreeSet', 'free_set'), ('field', 'FreeField', 'free_field')]
    for sort, _, ctor in values:
        out.append(f"free-exchanged x (of_{sort} a) d = ap of_{sort} (chosen x a (t.{ctor} x))")
    out.append("""
-- another leaf stays
pub other-kept : (p : Pools) (ts : List ValueTree) (x : Name) (d : ℕ) (y : Shape) (v : ValueTree) → is_leaf y ≡ true → (shape_tree p ts y ≡ free_value x v → ⊥) →
    rewritten_value (shape_tree p ts y) (leaves_alone (substituting x v)) d ≡ shape_tree p ts y
unfolding is_leaf shape_tree rewritten_value rewritten_term rewritten_int rewritten_set rewritten_field rewritten_formula""")
    for sort, _, _ in values:
        out.append(f"other-kept p ts x d (s.Bound k) (of_{sort} a) leaf differs = refl")
    for own, shape, ctor in values:
        for sort, _, _ in values:
            proof = 'refl' if sort != own else \
                f"ap of_{sort} (other (the_name (slice_get p.names n)) x a (t.{ctor} (the_name (slice_get p.names n))) (λ e. differs (ap (λ z. of_{sort} (t.{ctor} z)) e)))"
            out.append(f"other-kept p ts x d (s.{shape} n) (of_{sort} a) leaf differs = {proof}")
    out.append("other-kept p ts x d _ v leaf differs = absurd (true≢false (sym leaf))")
    out.append("""
-- the free name at the sort of the value
pub free-fits : (p : Pools) (ts : List ValueTree) (n : ℕ) (sort : Sort) → is_some (slice_get p.names n) ≡ true → fits p ts (free_shape n sort) ≡ true
unfolding fits free_shape
free-fits p ts n Sort.Obj h = h
free-fits p ts n Sort.Int h = h
free-fits p ts n Sort.Bool h = h
free-fits p ts n Sort.Set h = h
free-fits p ts n Sort.Field h = h

pub free-tree : (p : Pools) (ts : List ValueTree) (n : ℕ) (v : ValueTree) → shape_tree p ts (free_shape n (tree_sort v)) ≡ free_value (the_name (slice_get p.names n)) v
unfolding shape_tree free_shape""")
    for sort, _, _ in values:
        out.append(f"free-tree p ts n (of_{sort} a) = refl")
    text = '\n'.join(out) + '\n'
    return text.replace('{Sort}\nuse Rattle.jh_form.specs.Tree.{Value', '{Sort}\nuse Rattle.jh_name.specs.declared.place.Sort.TheVariants as Sort\nuse Rattle.jh_form.specs.Tree.{Value').replace('declared.place.Sort.{Sort}', 'declared.place.Sort as place').replace('(sort : Sort)', '(sort : place.Sort)')


def lacking():
    """A tree that lacks a part stays where the part is exchanged."""
    wraps = {'T': 'of_object', 'I': 'of_number', 'S': 'of_set', 'F': 'of_field', 'P': 'of_truth'}
    taken = {'T': 'object_or', 'I': 'number_or', 'S': 'set_or', 'F': 'field_or', 'P': 'truth_or'}
    out = [f"""-- Written by tools/rewrite.py: a tree that lacks a part stays where the part is exchanged.
use Rattle.std.proofs.Common.{{◌≡◌, refl, ap, ◌∙◌, subst, ℕ, ◌+◌, ◌<◌, Bool, true, false, if◌then◌else◌, List, Option, Some, None, slice_get, arith}}
use Rattle.jh_form.specs.Tree.{{{TREES}}}
use Rattle.jh_form.specs.Tree as t
use Rattle.jh_boxed.specs.Parts.{{Among, first, later, IsChild, IsPart, child, within}}
use Rattle.jh_boxed.specs.Parts as part
use Rattle.jh_boxed_operations.specs.comparison.Exchanged.{{equal_trees}}
use Rattle.jh_boxed_operations.proofs.comparison.Equalities.{{equal_trees-true}}
use Rattle.jh_arena.specs.table.Growth.{{AreDifferent}}
use Rattle.jh_substitution.specs.rewriting.Exchanging.{{new_for, exchanging}}
use Rattle.jh_substitution.specs.rewriting.Rewritten.{{{', '.join(taken[c] for c in 'TISFP')}, {', '.join('rewritten_' + fn_of(c) for c in ORDER + 'L')}}}

-- the tree is not the old one, and neither is a part of it
pub record Lacks (old v : ValueTree) : Type 0 where
  pub self : v ≡ old → ⊥
  pub part : IsPart old v → ⊥

down : (old a c : ValueTree) → IsChild a c → Lacks old c → Lacks old a
down old a c h l = record {{ self = λ e. l.part (subst (λ (z : ValueTree). IsPart z c) e (child a c h)); part = λ q. l.part (within old a c q h) }}

module _ (old new : ValueTree) where
  unless : (v : ValueTree) (b : Bool) → equal_trees v old ≡ b → (v ≡ old → ⊥) → (if b then Some new else None) ≡ None
  unless v true e differs = absurd (differs (equal_trees-true v old e))
  unless v false e differs = refl

  pub none-for : (v : ValueTree) → (v ≡ old → ⊥) → new_for old new v ≡ None
  none-for v differs = unless v (equal_trees v old) refl differs

  mutual
    unfolding {' '.join('rewritten_' + fn_of(c) for c in ORDER + 'L')} {' '.join(taken[c] for c in 'TISFP')}
"""]
    for c in ORDER:
        f = f"{fn_of(c)}-lacks"
        whole = '(t.{} a)'.format(wraps[c]) if c != 'V' else 'a'
        out.append(f"    pub {f} : (a : {tree_type(c)}) (d : ℕ) → Lacks old {whole} → rewritten_{fn_of(c)} a (exchanging old new) d ≡ a")
        for _, ctor, kinds in TYPES[c][3]:
            ns = names(kinds)
            tree = apply('t.' + ctor, ns)
            if ctor == 'bound':
                out.append(f"    {f} {tree} d l = refl")
                continue
            if c == 'V':
                out.append(f"    {f} {tree} d l = λ i. t.{ctor} ({fn_of(core(kinds[0]))}-lacks a d l i)")
                continue
            here = f"(t.{wraps[c]} {tree})"
            parts = [n for k, n in zip(kinds, ns) if is_part(k)]
            several = len(parts) > 1
            words = []
            for k, n in zip(kinds, ns):
                if not is_part(k):
                    words.append(n)
                    continue
                if core(k) == 'L':
                    rest = ' '.join(x for x in ns if x != n)
                    member = f"part.{ctor}-field f fs {rest} m".replace('  ', ' ')
                    words.append(f"(fields-lack fs d (λ f m. down old (t.of_field f) {here} ({member}) l) i)")
                    continue
                depth = '(d + 1)' if k.endswith('+') else 'd'
                tree_of_part = n if core(k) == 'V' else f"(t.{wraps[core(k)]} {n})"
                step = f"part.{ctor}" + (f"-{n}" if several else '') + ' ' + ' '.join(ns)
                words.append(f"({fn_of(core(k))}-lacks {n} {depth} (down old {tree_of_part} {here} ({step}) l) i)")
            made = f"(t.{ctor} {' '.join(words)})" if words else f"t.{ctor}"
            out.append(f"    {f} {tree} d l = λ i. {taken[c]} (none-for {here} l.self i) {made}")
        out.append('')
    out.append("""    pub fields-lack : (a : FieldTrees) (d : ℕ) → ((f : FieldTree) → Among f a → Lacks old (t.of_field f)) → rewritten_fields a (exchanging old new) d ≡ a
    fields-lack t.none d l = refl
    fields-lack (t.more f fs) d l = λ i. t.more (field-lacks f d (l f (first f fs)) i) (fields-lack fs d (λ g m. l g (later g f fs m)) i)

-- each part of a node is a node before it
abbrev pub PartsFirst : List ValueTree → Type 0
PartsFirst ts = (n : ℕ) (v w : ValueTree) → slice_get ts n ≡ Some v → IsChild w v → (m : ℕ) × (m < n) × (slice_get ts m ≡ Some w)

part-stands : (ts : List ValueTree) → PartsFirst ts → (a b : ValueTree) → IsPart a b → (n : ℕ) → slice_get ts n ≡ Some b → (m : ℕ) × (m < n) × (slice_get ts m ≡ Some a)
part-stands ts law _ _ (child a b h) n at = law n b a at h
part-stands ts law _ _ (within a b c p h) n at =
    let q = law n c b at h in
    let r = part-stands ts law a b p q.0 q.2 in
    let less : r.0 < n = let one : r.0 < q.0 = r.1 in let two : q.0 < n = q.1 in omega arith in
    (r.0, less, r.2)

away : (n m : ℕ) → n < m → n ≡ m → ⊥
away n m lt e = omega arith

-- a node before another lacks the other's tree
pub earlier-lacks : (ts : List ValueTree) (n from : ℕ) (v old : ValueTree) → PartsFirst ts → AreDifferent ts → n < from → slice_get ts n ≡ Some v → slice_get ts from ≡ Some old → Lacks old v
earlier-lacks ts n from v old law differ lt at there = record {
  self = λ e. away n from lt (differ n from old (at ∙ ap (λ z. Some z) e) there);
  part = λ q.
      let r = part-stands ts law old v q n at in
      let less : r.0 < from = let one : r.0 < n = r.1 in omega arith in
      away r.0 from less (differ r.0 from old r.2 there);
}
""")
    return '\n'.join(out)



def exchanged_pairs():
    """What an exchange answers is the tree with some occurrences exchanged."""
    relation = {'T': 'TermsRelated', 'I': 'IntsRelated', 'S': 'SetsRelated', 'F': 'FieldsRelated', 'V': 'ValuesRelated', 'P': 'FormulasRelated', 'L': 'ListsRelated'}
    here = {'T': 'term_here', 'I': 'int_here', 'S': 'set_here', 'F': 'field_here', 'P': 'formula_here'}
    wraps = {'T': 'of_object', 'I': 'of_number', 'S': 'of_set', 'F': 'of_field', 'P': 'of_truth'}
    taken = {'T': 'object_or', 'I': 'number_or', 'S': 'set_or', 'F': 'field_or', 'P': 'truth_or'}
    out = [f"""-- Written by tools/rewrite.py: what an exchange answers is the tree with some occurrences exchanged.
use Rattle.std.proofs.Common.{{◌≡◌, refl, sym, ℕ, ◌+◌, Bool, true, false, if◌then◌else◌, Option, Some, None}}
use Rattle.jh_form.specs.Tree.{{{TREES}}}
use Rattle.jh_form.specs.Tree as t
use Rattle.jh_boxed_operations.specs.comparison.Exchanged.{{equal_trees}}
use Rattle.jh_boxed_operations.specs.comparison.Related.{{{', '.join(relation[c] for c in ORDER + 'L')}}}
use Rattle.jh_boxed_operations.specs.comparison.Related as r
use Rattle.jh_boxed_operations.proofs.comparison.Equalities.{{equal_trees-true}}
use Rattle.jh_substitution.specs.rewriting.Exchanging.{{new_for, exchanging}}
use Rattle.jh_substitution.specs.rewriting.Rewritten.{{{', '.join(taken[c] for c in 'TISFP')}, {', '.join('rewritten_' + fn_of(c) for c in ORDER + 'L')}}}

module _ (old new : ValueTree) where
  abbrev pub Pair : ValueTree → ValueTree → Type 0
  Pair u v = (u ≡ old) × (v ≡ new)

  chosen-pair : (v w : ValueTree) (b : Bool) → equal_trees v old ≡ b → (if b then Some new else None) ≡ Some w → Pair v w
  chosen-pair v w true is q = (equal_trees-true v old is, cc)
  chosen-pair v w false is q = absurd (cc)

  pair-of : (v w : ValueTree) → new_for old new v ≡ Some w → Pair v w
  pair-of v w q = chosen-pair v w (equal_trees v old) refl q
"""]
    for c in 'TISFP':
        out.append(f"""
  {SORT[c]}-here : (o : Option ValueTree) (a b : {tree_type(c)}) → ((w : ValueTree) → o ≡ Some w → Pair (t.{wraps[c]} a) w) → {relation[c]} Pair a b → {relation[c]} Pair a ({taken[c]} o b)
  unfolding {taken[c]}
  {SORT[c]}-here (Some (t.{wraps[c]} x)) a b h k = r.{here[c]} a x (h (t.{wraps[c]} x) refl)
  {SORT[c]}-here _ a b h k = k""")
    out.append(f"""
  mutual
    unfolding {' '.join('rewritten_' + fn_of(c) for c in ORDER + 'L')}
""")
    for c in ORDER + 'L':
        f = f"{fn_of(c)}-exchanged"
        out.append(f"    pub {f} : (a : {tree_type(c)}) (d : ℕ) → {relation[c]} Pair a (rewritten_{fn_of(c)} a (exchanging old new) d)")
        variants = [(None, 'none', []), (None, 'more', ['F', 'L'])] if c == 'L' else TYPES[c][3]
        for _, ctor, kinds in variants:
            ns = ['f', 'fs'] if ctor == 'more' else names(kinds)
            tree = apply('t.' + ctor, ns)
            args, parts, news = [], [], []
            for k, n in zip(kinds, ns):
                if not is_part(k):
                    args.append(n)
                    news.append(n)
                    continue
                depth = '(d + 1)' if k.endswith('+') else 'd'
                made = f"(rewritten_{fn_of(core(k))} {n} (exchanging old new) {depth})"
                args += [n, made]
                news.append(made)
                parts.append(f"({fn_of(core(k))}-exchanged {n} {depth})")
            rel = f"r.{ctor} {' '.join(args + parts)}" if args + parts else f"r.{ctor}"
            if c in 'VL' or ctor == 'bound':
                out.append(f"    {f} {tree} d = {rel}")
                continue
            whole = f"(t.{wraps[c]} {tree})"
            after = f"(t.{ctor} {' '.join(news)})" if news else f"t.{ctor}"
            out.append(f"    {f} {tree} d = {SORT[c]}-here (new_for old new {whole}) {tree} {after} (pair-of {whole}) ({rel})")
        out.append('')
    return '\n'.join(out)


if __name__ == '__main__':
    with open(os.path.join(HERE, 'proofs', 'rewriting', 'SubstitutionRules.antt'), 'w') as out:
        out.write(substitution())
    with open(os.path.join(HERE, 'proofs', 'rewriting', 'Passings.antt'), 'w') as out:
        out.write(passings())
    with open(os.path.join(HERE, 'specs', 'rewriting', 'Rewritten.antt'), 'w') as out:
        out.write(rewritten_file())
    with open(os.path.join(HERE, 'proofs', 'rewriting', 'Wholes.antt'), 'w') as out:
        out.write(wholes_file())
    with open(os.path.join(HERE, 'proofs', 'rewriting', 'Meanings.antt'), 'w') as out:
        out.write(rewriting_meanings())
    with open(os.path.join(HERE, 'proofs', 'rewriting', 'PartRewritings.antt'), 'w') as out:
        out.write(sort_lemmas())
    with open(os.path.join(HERE, 'proofs', 'rewriting', 'Remakes.antt'), 'w') as out:
        out.write(remakes())
    with open(os.path.join(HERE, 'proofs', 'rewriting', 'Exchanged.antt'), 'w') as out:
        out.write(exchanged_pairs())
    with open(os.path.join(HERE, 'proofs', 'rewriting', 'Lacking.antt'), 'w') as out:
        out.write(lacking())
