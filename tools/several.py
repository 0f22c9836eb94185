#!/usr/bin/env python3
"""Writes the definitions and lemmas on several names substituted at once, one case for each sort."""
import os
import re
import sys

sys.path.insert(0, os.path.dirname(os.path.abspath(__file__)))

TOP = os.path.join(os.path.dirname(os.path.abspath(__file__)), '..', 'crates')
SORTS = ['object', 'number', 'truth', 'set', 'field']
TREE = {'object': 'TermTree', 'number': 'IntTree', 'truth': 'FormulaTree', 'set': 'SetTree', 'field': 'FieldTree'}
VALUE = {'object': 'term_value', 'number': 'int_value', 'truth': 'truth', 'set': 'set_value', 'field': 'field_value'}
DATUM = {'object': 'ℕ', 'number': 'ℤ', 'truth': 'Bool', 'set': 'ℕ → Bool', 'field': 'Fields'}


def definitions():
    out = ["""-- Written by tools/several.py: several values for several names, all at once.
use Rattle.std.specs.Prelude.{◌≡◌, ℕ, Bool, true, not, ◌&&◌, if◌then◌else◌, List, [], ◌∷◌}
use Rattle.jh_name.specs.declared.naming.Name.{Name}
use Rattle.jh_form.specs.Tree.{TermTree, IntTree, SetTree, FieldTree, FormulaTree, ValueTree}
use Rattle.jh_form.specs.Tree as t
use Rattle.jh_form.specs.Assigned.{assigned}
use Rattle.jh_form.specs.Closed.{is_closed_value}
use Rattle.jh_form.specs.Meaning.{Interp, datum}
use Rattle.jh_form.specs.Passing.{name_equal}
use Rattle.jh_boxed.specs.Mapped.{LeafMap, unchanged}

-- What a list of names, each with a value, puts for a name at each sort: the value of the first pair of that
-- name whose value is of the sort. A name without one stays."""]
    for s in SORTS:
        out.append(f"abbrev pub {s}_in : List (Name × ValueTree) → Name → {TREE[s]}")
        out.append(f"{s}_in [] y = t.free_{s} y")
        for o in SORTS:
            body = f"if name_equal y x then a else {s}_in ps y" if o == s else f"{s}_in ps y"
            out.append(f"{s}_in ((x, t.of_{o} a) ∷ ps) y = {body}")
        out.append('')
    out.append("""-- all at once: no value is looked at again
abbrev pub instead : List (Name × ValueTree) → LeafMap
instead ps = record unchanged { object_at = λ y d. object_in ps y; number_at = λ y d. number_in ps y; truth_at = λ y d. truth_in ps y; set_at = λ y d. set_in ps y; field_at = λ y d. field_in ps y }

-- the name is none of the list's
abbrev pub none_of : List (Name × ValueTree) → Name → Bool
none_of [] y = true
none_of (e ∷ ps) y = not (name_equal y e.0) && none_of ps y

-- no value has a loose bound variable
abbrev pub all_closed : List (Name × ValueTree) → Bool
all_closed [] = true
all_closed (e ∷ ps) = is_closed_value e.1 0 && all_closed ps

-- The interpretation in which each name has its value's meaning, at the sort of the value. All values mean what
-- they mean before.
abbrev pub all_assigned : Interp → List (Name × ValueTree) → Interp
all_assigned m [] = m
all_assigned m (e ∷ ps) = assigned (all_assigned m ps) e.0 (datum e.1 m [])""")
    return '\n'.join(out) + '\n'


def fixes():
    out = ["""-- Written by tools/several.py: other names are left alone, and each leaf is exchanged for the value of its name.
use Rattle.std.proofs.Common.{◌≡◌, refl, sym, ap, ◌∙◌, ℕ, Bool, true, false, not, ◌&&◌, if◌then◌else◌, List, [], ◌∷◌}
use Rattle.std.proofs.lemmas.Bool.{true≢false}
use Rattle.jh_name.specs.declared.naming.Name.{Name}
use Rattle.jh_form.specs.Tree.{ValueTree, of_object, of_number, of_truth, of_set, of_field}
use Rattle.jh_form.specs.Tree as t
use Rattle.jh_form.specs.Passing.{name_equal}
use Rattle.jh_form.proofs.ClosedLemmas.{both-left, both-right}
use Rattle.jh_form.proofs.Names.{name_equal-same}
use Rattle.jh_substitution.specs.rewriting.Fixing.{FixesNames}
use Rattle.jh_substitution.specs.rewriting.Leaf.{free_value}
use Rattle.jh_substitution.proofs.rewriting.SubstitutionRules.{other}
use Rattle.jh_substitution.specs.simultaneous.Several.{object_in, number_in, truth_in, set_in, field_in, none_of, instead}

skipped : {X : Type 0} (a c : X) (b : Bool) → not b ≡ true → (if b then a else c) ≡ c
skipped a c true h = absurd (true≢false (sym h))
skipped a c false h = refl
"""]
    for s in SORTS:
        rest = "(both-right (not (name_equal y x)) (none_of ps y) h)"
        out.append(f"{s}-other : (ps : List (Name × ValueTree)) (y : Name) → none_of ps y ≡ true → {s}_in ps y ≡ t.free_{s} y")
        out.append(f"{s}-other [] y h = refl")
        for o in SORTS:
            body = f"skipped a ({s}_in ps y) (name_equal y x) (both-left (not (name_equal y x)) (none_of ps y) h) ∙ {s}-other ps y {rest}" if o == s else f"{s}-other ps y {rest}"
            out.append(f"{s}-other ((x, of_{o} a) ∷ ps) y h = {body}")
        out.append('')
    out.append("pub instead-fixes : (ps : List (Name × ValueTree)) → FixesNames (instead ps) (λ y s. none_of ps y)")
    out.append("instead-fixes ps = record { " + '; '.join(f"{s} = λ y d h. {s}-other ps y h" for s in SORTS) + "; bound = λ k d. refl }\n")
    out.append("""matched : {X : Type 0} (y x : Name) (a c : X) → x ≡ y → (if name_equal y x then a else c) ≡ a
matched y x a c e = ap (λ b. if b then a else c) (name_equal-same y x (sym e))
""")
    for s in SORTS:
        out.append(f"-- the first pair is that of the name\npub {s}-taken : (y x : Name) (v : ValueTree) (ps : List (Name × ValueTree)) → free_value x v ≡ of_{s} (t.free_{s} y) → of_{s} ({s}_in ((x, v) ∷ ps) y) ≡ v")
        for o in SORTS:
            body = f"let same : x ≡ y = cc in ap of_{s} (matched y x a ({s}_in ps y) same)" if o == s else "absurd (cc)"
            out.append(f"{s}-taken y x (of_{o} a) ps e = {body}")
        out.append(f"\n-- the first pair is of another name or sort\npub {s}-passed : (y x : Name) (v : ValueTree) (ps : List (Name × ValueTree)) → (free_value x v ≡ of_{s} (t.free_{s} y) → ⊥) → {s}_in ((x, v) ∷ ps) y ≡ {s}_in ps y")
        for o in SORTS:
            body = f"other y x a ({s}_in ps y) (λ e. differs (ap (λ z. of_{s} (t.free_{s} z)) (sym e)))" if o == s else "refl"
            out.append(f"{s}-passed y x (of_{o} a) ps differs = {body}")
        out.append('')
    out.append("pub bound-taken : (k : ℕ) (x : Name) (v : ValueTree) → free_value x v ≡ of_object (t.bound k) → ⊥")
    for o in SORTS:
        out.append(f"bound-taken k x (of_{o} a) e = cc")
    return '\n'.join(out) + '\n'


def meanings():
    out = ["""-- Written by tools/several.py: values for several names keep the meaning, where each name has its value's.
use Rattle.std.proofs.Common.{◌≡◌, refl, ℕ, Bool, true, false, ◌&&◌, if◌then◌else◌, List, [], ◌∷◌, ℤ, arith}
use Rattle.jh_name.specs.declared.naming.Name.{Name}
use Rattle.jh_form.specs.Tree.{TermTree, IntTree, SetTree, FieldTree, FormulaTree, ValueTree, of_object, of_number, of_truth, of_set, of_field}
use Rattle.jh_form.specs.Tree as t
use Rattle.jh_form.specs.Closed.{is_closed_value, is_closed_term, is_closed_int, is_closed_formula, is_closed_set, is_closed_field}
use Rattle.jh_form.specs.Meaning.{Interp, Fields, term_value, int_value, truth, set_value, field_value}
use Rattle.jh_form.specs.Passing.{name_equal}
use Rattle.jh_form.proofs.ClosedLemmas.{both-left, both-right, AgreeBelow, term_value-closed, int_value-closed, truth-closed, set_value-closed, field_value-closed}
use Rattle.jh_boxed.specs.Kept.{Keeps}
use Rattle.jh_boxed.specs.Mapped.{mapped_formula}
use Rattle.jh_boxed.proofs.Meanings.{truth-mapped}
use Rattle.jh_substitution.specs.simultaneous.Several.{object_in, number_in, truth_in, set_in, field_in, instead, all_closed, all_assigned}

none-below : (e : List ℕ) → AgreeBelow 0 e []
none-below e k h = absurd (omega arith)

last-same : (m : Interp) (ps : List (Name × ValueTree)) → m.last ≡ (all_assigned m ps).last
last-same m [] = refl"""]
    for o in SORTS:
        out.append(f"last-same m ((x, of_{o} a) ∷ ps) = last-same m ps")
    out.append('')
    closed = {'object': 'is_closed_term', 'number': 'is_closed_int', 'truth': 'is_closed_formula', 'set': 'is_closed_set', 'field': 'is_closed_field'}
    for s in SORTS:
        v = VALUE[s]
        out.append(f"""{s}-choice : (m : Interp) (e : List ℕ) (b : Bool) (a c : {TREE[s]}) (u w : {DATUM[s]}) → {v} a m e ≡ u → {v} c m e ≡ w → {v} (if b then a else c) m e ≡ (if b then u else w)
{s}-choice m e true a c u w h k = h
{s}-choice m e false a c u w h k = k

{s}-means : (m : Interp) (ps : List (Name × ValueTree)) → all_closed ps ≡ true → (y : Name) (e : List ℕ) → {v} ({s}_in ps y) m e ≡ (all_assigned m ps).{s} y
unfolding is_closed_value
{s}-means m [] h y e = refl""")
        for o in SORTS:
            first = f"({closed[o]} a 0)"
            rest = f"{s}-means m ps (both-right {first} (all_closed ps) h) y e"
            if o == s:
                body = f"{s}-choice m e (name_equal y x) a ({s}_in ps y) ({v} a m []) ((all_assigned m ps).{s} y) ({v}-closed a m 0 e [] (none-below e) (both-left {first} (all_closed ps) h)) ({rest})"
            else:
                body = rest
            out.append(f"{s}-means m ((x, of_{o} a) ∷ ps) h y e = {body}")
        out.append('')
    out.append("instead-keeps : (m : Interp) (ps : List (Name × ValueTree)) → all_closed ps ≡ true → Keeps (instead ps) m (all_assigned m ps) (λ d e. e)")
    out.append("instead-keeps m ps h = record {\n  last = last-same m ps;\n  under = λ d e x. refl;")
    for s in SORTS:
        out.append(f"  {s} = λ y d e f. {s}-means m ps h y e;")
    out.append("  bound = λ k d e f. refl;\n}\n")
    out.append("""pub truth-instead : (a : FormulaTree) (ps : List (Name × ValueTree)) → all_closed ps ≡ true → (m : Interp) (e : List ℕ) → truth (mapped_formula a (instead ps) 0) m e ≡ truth a (all_assigned m ps) e
truth-instead a ps h m e = truth-mapped (instead ps) m (all_assigned m ps) (λ d g. g) (instead-keeps m ps h) a 0 e (omega arith)""")
    return '\n'.join(out) + '\n'


def leaves():
    shape = {'object': 'FreeObject', 'number': 'FreeNumber', 'truth': 'FreeTruth', 'set': 'FreeSet', 'field': 'FreeField'}
    out = ["""-- Written by tools/several.py: the node that is put for a leaf.
use Rattle.std.proofs.Common.{◌≡◌, refl, sym, ap, ◌∙◌, ℕ, ◌==◌, Bool, true, false, if◌then◌else◌, List, [], ◌∷◌, Some, slice_get}
use Rattle.std.proofs.lemmas.Bool.{true≢false, eqb-true, eqb-false}
use Rattle.jh_name.specs.declared.naming.Name.{Name}
use Rattle.jh_form.specs.Tree.{ValueTree, of_object, of_number, of_truth, of_set, of_field}
use Rattle.jh_form.specs.Tree as t
use Rattle.jh_arena.specs.table.Entries.{Listing, the_name, the_value}
use Rattle.jh_arena.specs.table.Growth.{AreDifferent}
use Rattle.jh_arena.specs.table.Nodes.{nodes, shape_tree, tree_in}
use Rattle.jh_arena.specs.declared.table.shapes.Shape.{Shape}
use Rattle.jh_arena.specs.declared.table.shapes.Shape.TheVariants as s
use Rattle.jh_substitution.specs.rewriting.Leaf.{is_leaf, free_value}
use Rattle.jh_substitution.specs.rewriting.Rewritten.{leaves_alone, rewritten_value, rewritten_term, rewritten_int, rewritten_set, rewritten_field, rewritten_formula}
use Rattle.jh_substitution.specs.rewriting.Walks.{IsRewritten}
use Rattle.jh_substitution.proofs.rewriting.Sorted.{exchanged-rewritten, value-listed}
use Rattle.jh_substitution.specs.declared.simultaneous.pairs.Instead.{Instead}
use Rattle.jh_substitution.specs.simultaneous.Pairs.{pairs_in, AreReady, chosen_of}
use Rattle.jh_substitution.specs.simultaneous.Several.{object_in, number_in, truth_in, set_in, field_in, instead}
use Rattle.jh_substitution.proofs.simultaneous.Fixes.{object-taken, object-passed, number-taken, number-passed, truth-taken, truth-passed, set-taken, set-passed, field-taken, field-passed, bound-taken}

module _ (u : Listing) (differ : AreDifferent (nodes u)) (n : ℕ) where
  -- the leaf of a pair is the node exactly where both are one tree
  abbrev leaf_tree : Instead → ValueTree
  leaf_tree p = free_value (the_name (slice_get u.pools.names p.name)) (the_value (slice_get (nodes u) p.value))
"""]
    for s in SORTS:
        tree = f"of_{s} (t.free_{s} y)"
        out.append(f"""  {s}-step : (y : Name) (p : Instead) (ps : List Instead) (b : Bool) → (p.leaf == n) ≡ b → AreReady u (p ∷ ps) → slice_get (nodes u) n ≡ Some ({tree}) →
      slice_get (nodes u) (chosen_of ps n) ≡ Some (of_{s} ({s}_in (pairs_in u ps) y)) → slice_get (nodes u) (if b then p.value else chosen_of ps n) ≡ Some (of_{s} ({s}_in (pairs_in u (p ∷ ps)) y))
  {s}-step y p ps true is ready there rest =
      let at : slice_get (nodes u) n ≡ Some (leaf_tree p) = ap (slice_get (nodes u)) (sym (eqb-true p.leaf n is)) ∙ ready.0.free in
      let same : leaf_tree p ≡ {tree} = cc (at, there) in
      value-listed (slice_get (nodes u) p.value) ready.0.valued ∙ ap (λ v. Some v) (sym ({s}-taken y (the_name (slice_get u.pools.names p.name)) (the_value (slice_get (nodes u) p.value)) (pairs_in u ps) same))
  {s}-step y p ps false is ready there rest =
      let away : p.leaf ≡ n → ⊥ = eqb-false p.leaf n is in
      rest ∙ ap (λ a. Some (of_{s} a)) (sym ({s}-passed y (the_name (slice_get u.pools.names p.name)) (the_value (slice_get (nodes u) p.value)) (pairs_in u ps)
      (λ e. away (differ p.leaf n ({tree}) (ready.0.free ∙ ap (λ v. Some v) e) there))))

  {s}-chosen : (y : Name) (ps : List Instead) → AreReady u ps → slice_get (nodes u) n ≡ Some ({tree}) → slice_get (nodes u) (chosen_of ps n) ≡ Some (of_{s} ({s}_in (pairs_in u ps) y))
  {s}-chosen y [] ready there = there
  {s}-chosen y (p ∷ ps) ready there = {s}-step y p ps (p.leaf == n) refl ready there ({s}-chosen y ps ready.1 there)
""")
    out.append("""  bound-step : (k : ℕ) (p : Instead) (ps : List Instead) (b : Bool) → (p.leaf == n) ≡ b → AreReady u (p ∷ ps) → slice_get (nodes u) n ≡ Some (of_object (t.bound k)) →
      slice_get (nodes u) (chosen_of ps n) ≡ Some (of_object (t.bound k)) → slice_get (nodes u) (if b then p.value else chosen_of ps n) ≡ Some (of_object (t.bound k))
  bound-step k p ps true is ready there rest =
      let at : slice_get (nodes u) n ≡ Some (leaf_tree p) = ap (slice_get (nodes u)) (sym (eqb-true p.leaf n is)) ∙ ready.0.free in
      let same : leaf_tree p ≡ of_object (t.bound k) = cc (at, there) in
      absurd (bound-taken k (the_name (slice_get u.pools.names p.name)) (the_value (slice_get (nodes u) p.value)) same)
  bound-step k p ps false is ready there rest = rest

  bound-chosen : (k : ℕ) (ps : List Instead) → AreReady u ps → slice_get (nodes u) n ≡ Some (of_object (t.bound k)) → slice_get (nodes u) (chosen_of ps n) ≡ Some (of_object (t.bound k))
  bound-chosen k [] ready there = there
  bound-chosen k (p ∷ ps) ready there = bound-step k p ps (p.leaf == n) refl ready there (bound-chosen k ps ready.1 there)

  put-for : (x : Shape) (ps : List Instead) (d : ℕ) → is_leaf x ≡ true → AreReady u ps → slice_get (nodes u) n ≡ Some (tree_in u x) →
      slice_get (nodes u) (chosen_of ps n) ≡ Some (rewritten_value (tree_in u x) (leaves_alone (instead (pairs_in u ps))) d)
  unfolding is_leaf shape_tree rewritten_value rewritten_term rewritten_int rewritten_set rewritten_field rewritten_formula
  put-for (s.Bound k) ps d leaf ready there = bound-chosen k ps ready there""")
    for s in SORTS:
        out.append(f"  put-for (s.{shape[s]} k) ps d leaf ready there = {s}-chosen (the_name (slice_get u.pools.names k)) ps ready there")
    out.append("""  put-for _ ps d leaf ready there = absurd (true≢false (sym leaf))

  pub leaf-put : (x : Shape) (ps : List Instead) (d : ℕ) → is_leaf x ≡ true → AreReady u ps → slice_get (nodes u) n ≡ Some (tree_in u x) →
      IsRewritten (leaves_alone (instead (pairs_in u ps))) (nodes u) n d (chosen_of ps n)
  leaf-put x ps d leaf ready there =
      exchanged-rewritten (nodes u) (leaves_alone (instead (pairs_in u ps))) n d (chosen_of ps n) (tree_in u x) (rewritten_value (tree_in u x) (leaves_alone (instead (pairs_in u ps))) d) there (put-for x ps d leaf ready there) refl""")
    return '\n'.join(out) + '\n'


def both():
    """What passes two tests passes both at once: from the file on weaker tests."""
    source = open(f'{TOP}/jh_arena/proofs/table/Weaker.antt').read()
    text = source.replace('-- What passes a test passes a weaker one.', '-- Written by tools/several.py: what passes two tests passes both at once.')
    head = text.index('module _ (p q')
    lines = text[head:].split('\n')
    out = [text[:head].rstrip('\n'), '', 'module _ (p q : Name → place.Sort → Bool) where']
    for line in lines[1:]:
        if ' : ' in line and line.strip().startswith('pub '):
            name, tree, fn = re.match(r'    pub (\w+)-weaker : \(a : (\w+)\) → (\w+) a p', line).groups()
            out.append(f"    pub {name}-both : (a : {tree}) → {fn} a p ≡ true → {fn} a q ≡ true → {fn} a (λ x s. p x s && q x s) ≡ true")
            continue
        if '-weaker' not in line:
            out.append(line)
            continue
        left, right = line.split(' = ', 1)
        left = left.replace('-weaker', '-both') + ' g'
        if right.startswith('w x'):
            out.append(f"{left} = λ i. h i && g i")
            continue
        right = re.sub(r'(\w+)-weaker (\w+) ((?:\((?:[^()]|\((?:[^()]|\([^()]*\))*\))*\))|h)', lambda m: f"{m[1]}-both {m[2]} {m[3]} " + re.sub(r'\bh\b', 'g', re.sub(r'\bp\b', 'q', m[3])), right)
        out.append(f"{left} = {right}")
    return '\n'.join(out)


if __name__ == '__main__':
    base = f'{TOP}/jh_substitution'
    open(f'{base}/specs/simultaneous/Several.antt', 'w').write(definitions())
    open(f'{base}/proofs/simultaneous/Fixes.antt', 'w').write(fixes())
    open(f'{base}/proofs/simultaneous/Meanings.antt', 'w').write(meanings())
    open(f'{base}/proofs/simultaneous/Leaves.antt', 'w').write(leaves())
    open(f'{base}/proofs/simultaneous/Both.antt', 'w').write(both())
