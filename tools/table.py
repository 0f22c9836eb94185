#!/usr/bin/env python3
"""Writes the rote files of the table of nodes, one line for each constructor, from the table of forms.py."""
from forms import TYPES, ORDER, core, is_part, apply, call

WRAP = {'T': 'of_object', 'I': 'of_number', 'S': 'of_set', 'F': 'of_field', 'P': 'of_truth'}
IS = {'T': 'is_object', 'I': 'is_number', 'S': 'is_set', 'F': 'is_field', 'P': 'is_truth', 'V': 'is_some'}
THE = {'T': 'the_object', 'I': 'the_number', 'S': 'the_set', 'F': 'the_field', 'P': 'the_truth', 'V': 'the_value'}
AT = {'T': 'object_at', 'I': 'number_at', 'S': 'set_at', 'F': 'field_at', 'P': 'truth_at', 'V': 'value_at'}
TREE = {'T': 'TermTree', 'I': 'IntTree', 'S': 'SetTree', 'F': 'FieldTree', 'P': 'FormulaTree', 'V': 'ValueTree'}
POOL = {'n': 'names', 'k': 'marks', 'L': 'lists'}
THE_POOL = {'n': 'the_name', 'k': 'the_mark', 'L': 'the_list'}
RUST = {'True': 'True', 'False': 'False'}
VARIANT = {'true_formula': 'True', 'false_formula': 'False'}


def camel(ctor):
    return VARIANT.get(ctor) or ''.join(w.capitalize() for w in ctor.split('_'))


def shapes():
    """(sort, tree constructor, variant, kinds) of each constructor but those of Value."""
    for code in ORDER:
        if code == 'V':
            continue
        for _, ctor, kinds in TYPES[code][3]:
            yield code, ctor, camel(ctor), kinds


def names(kinds):
    """Names of a shape's arguments: a, b, c for parts, k, n, z, m, l for data."""
    parts = iter('abcd')
    data = {'u': 'k', 'n': 'n', 'z': 'z', 'k': 'm', 'L': 'l'}
    return [data[core(k)] if core(k) == 'L' or not is_part(k) else next(parts) for k in kinds]


def direct(kinds, ns):
    """The parts that are no fields of a list."""
    return [(k, n) for k, n in zip(kinds, ns) if is_part(k) and core(k) != 'L']


def has_list(kinds):
    return any(core(k) == 'L' for k in kinds)


def list_of(items):
    return ' ∷ '.join(items + ['[]'])


USE_TREES = "use Rattle.jh_form.specs.Tree.{TermTree, IntTree, SetTree, FieldTree, ValueTree, FormulaTree, FieldTrees, of_object, of_number, of_truth, of_set, of_field, none, more}"
USE_SHAPES = "use Rattle.jh_arena.specs.declared.table.shapes.Shape.{Shape}\nuse Rattle.jh_arena.specs.declared.table.shapes.Shape.TheVariants as s"


# ---------------------------------------------------------------- specs/Nodes.antt

def fits_of(kind, n):
    c = core(kind)
    if c in ('n', 'k'):
        return f"is_some (slice_get p.{POOL[c]} {n})"
    if c == 'L':
        return f"is_some (slice_get p.lists {n}) && are_fields ts (the_list (slice_get p.lists {n}))"
    if is_part(kind):
        return f"{IS[c]} (slice_get ts {n})"
    return None


def tree_of(kind, n):
    c = core(kind)
    if c in ('n', 'k'):
        return f"({THE_POOL[c]} (slice_get p.{POOL[c]} {n}))"
    if c == 'L':
        return f"(fields_at ts (the_list (slice_get p.lists {n})))"
    if is_part(kind):
        return f"({THE[c]} (slice_get ts {n}))"
    return n


def nodes_file():
    out = [f"""-- The tree of each node of a table.
use Rattle.std.specs.Prelude.{{◌≡◌, ℕ, Bool, true, false, ◌&&◌, List, [], ◌∷◌, ◌++◌, Option, Some, None, is_some, slice_get}}
{USE_TREES}
use Rattle.jh_form.specs.Tree as t
use Rattle.jh_arena.specs.table.Entries.{{Pools, Listing, the_name, the_mark, the_list, {', '.join(IS[c] for c in 'TISFP')}, {', '.join(THE[c] for c in 'TISFPV')}, are_fields, fields_at}}
{USE_SHAPES}

module _ (p : Pools) (ts : List ValueTree) where
  -- The parts of a shape stand in the list, each at its sort, and its name, label or list of fields in the
  -- pools.
  unfoldable pub fits : Shape → Bool"""]
    for code, ctor, variant, kinds in shapes():
        ns = names(kinds)
        tests = [f for f in (fits_of(k, n) for k, n in zip(kinds, ns)) if f]
        out.append(f"  fits {apply('s.' + variant, ns)} = {' && '.join(tests) if tests else 'true'}")
    out.append("""
  -- the tree of a shape whose parts stand in the list
  unfoldable pub shape_tree : Shape → ValueTree""")
    for code, ctor, variant, kinds in shapes():
        ns = names(kinds)
        out.append(f"  shape_tree {apply('s.' + variant, ns)} = {WRAP[code]} {apply('t.' + ctor, [tree_of(k, n) for k, n in zip(kinds, ns)])}")
    out.append("""
module _ (p : Pools) where
  -- the list of trees after these shapes are added to it
  unfoldable pub listed : List ValueTree → List Shape → List ValueTree
  listed ts [] = ts
  listed ts (x ∷ xs) = listed (ts ++ shape_tree p ts x ∷ []) xs

  -- each shape fits the trees before it
  unfoldable pub well : List ValueTree → List Shape → Bool
  well ts [] = true
  well ts (x ∷ xs) = fits p ts x && well (ts ++ shape_tree p ts x ∷ []) xs

-- the trees of a table's nodes, in the order in which they were made
abbrev pub nodes : Listing → List ValueTree
nodes t = listed t.pools [] t.shapes

-- whether a shape's parts are nodes of the table, each of its sort
abbrev pub fits_in : Listing → Shape → Bool
fits_in t x = fits t.pools (nodes t) x

-- the tree that a shape is in the table
abbrev pub tree_in : Listing → Shape → ValueTree
tree_in t x = shape_tree t.pools (nodes t) x
""")
    return '\n'.join(out)


# ---------------------------------------------------------------- specs/Parts.antt

def parts_spec():
    out = [f"""-- The parts of a shape, in order: the fields of its list first.
use Rattle.std.specs.Prelude.{{◌≡◌, ℕ, ◌<◌, Bool, true, false, List, [], ◌∷◌, ◌++◌, length, Option, slice_get, Some, None, slice_index}}
use Rattle.jh_arena.specs.table.Entries.{{the_list}}
{USE_SHAPES}

-- the parts but those of a list
unfoldable pub own_parts : Shape → List ℕ"""]
    for code, ctor, variant, kinds in shapes():
        ns = names(kinds)
        out.append(f"own_parts {apply('s.' + variant, ns)} = {list_of([n for _, n in direct(kinds, ns)])}")
    out.append("""
-- the parts of a list
unfoldable pub list_parts : List (List ℕ) → Shape → List ℕ
list_parts ls (s.Reach l a b) = the_list (slice_get ls l)
list_parts ls (s.Tree l) = the_list (slice_get ls l)
list_parts ls _ = []

-- whether a shape has a list of fields
unfoldable pub has_list : Shape → Bool
has_list (s.Reach l a b) = true
has_list (s.Tree l) = true
has_list _ = false

-- all parts, those of the list first
abbrev pub parts : List (List ℕ) → Shape → List ℕ
parts ls x = list_parts ls x ++ own_parts x

-- the parts of a shape are nodes below a place
pub record ArePartsBelow (place : ℕ) (ls : List (List ℕ)) (x : Shape) : Type 0 where
  pub below : (i k : ℕ) → slice_get (parts ls x) i ≡ Some k → k < place

-- the number of a shape's list of fields
unfoldable pub list_of : Shape → Option ℕ
list_of (s.Reach l a b) = Some l
list_of (s.Tree l) = Some l
list_of _ = None

-- how many variables a shape binds in its parts
unfoldable pub binders : Shape → ℕ
binders (s.Compr a) = 1
binders (s.All a) = 1
binders (s.Ex a) = 1
binders _ = 0

-- the shape with another list of fields and other parts
unfoldable pub put : ℕ → List ℕ → Shape → Shape""")
    for code, ctor, variant, kinds in shapes():
        ns = names(kinds)
        new, i = [], 0
        for k, n in zip(kinds, ns):
            if core(k) == 'L':
                new.append('f')
            elif is_part(k):
                new.append(f"(slice_index xs {i})")
                i += 1
            else:
                new.append(n)
        out.append(f"put f xs {apply('s.' + variant, ns)} = {call('s.' + variant, new)}")
    out.append("""
-- x is the shape old with the parts xs in place of its own, in the order of `parts`, where ls are the
-- lists of fields
pub record IsPut (ls : List (List ℕ)) (xs : List ℕ) (old x : Shape) : Type 0 where
  pub list : ℕ
  pub fields : List ℕ
  pub own : List ℕ
  pub split : xs ≡ fields ++ own
  pub counted : length own ≡ length (own_parts old)
  pub is : x ≡ put list own old
  pub listed : has_list old ≡ true → slice_get ls list ≡ Some fields
  pub unlisted : has_list old ≡ false → fields ≡ []
""")
    return '\n'.join(out)


# ---------------------------------------------------------------- src/shapes.rt

DOC = {
    'T': 'A term for an object', 'I': 'a term for a number', 'S': 'a term for a set', 'F': 'a field', 'P': 'a formula',
}


def shapes_code():
    sorts = {'T': 'terms for objects', 'I': 'terms for numbers', 'S': 'terms for sets', 'F': 'fields', 'P': 'formulas'}
    rust = {'u': 'u32', 'z': 'i64'}
    out = ["""#![tactic(auto, unfolding(crate::specs::table::Parts::own_parts, crate::specs::table::Parts::list_of, crate::specs::table::Parts::binders, crate::specs::table::Parts::put))]

ghost use Rattle.std.specs.Prelude.{◌≡◌, ◌<◌, Some, length, slice_get};
ghost use Rattle.jh_arena.specs.table.Parts.{own_parts, list_of, binders, put};
ghost use Rattle.jh_arena.specs.table.Own.{own_list};

use std::hash::{Hash, Hasher};

/// One node of a table: a constructor of terms, fields or formulas over the numbers of its parts. Names,
/// labels and lists of fields stand in pools of the table and are given by their numbers there. The
/// constructors of each sort are variants of their own, so a shape tells its sort.
#[derive(Clone, Copy)]
pub enum Shape {"""]
    last = None
    for code, ctor, variant, kinds in shapes():
        args = ', '.join(rust.get(core(k), 'usize') for k in kinds)
        out.append(f"    {variant}({args})," if kinds else f"    {variant},")
    out.append("""}

// Shapes are compared and hashed by their codes, since derived tests have an arm for each constructor, with goals of its own.
impl PartialEq for Shape {
    ghost use Rattle.std.specs.Ordering.{on};
    ghost use Rattle.std.specs.Cmp.Rules.{comparing};
    ghost use Rattle.std.proofs.Common.{rules};
    ghost use Rattle.jh_arena.specs.table.Codes.{code_of, same_code, code_laws};

    ghost eq = { on code_of same_code };

    ghost laws = { Prim.search (comparing, code_laws, rules) };

    fn eq(&self, other: &Shape) -> bool {
        self.code().is(other.code())
    }
}

impl Eq for Shape {
    ghost use Rattle.std.specs.Cmp.Rules.{comparing};
    ghost use Rattle.std.proofs.Common.{rules};
    ghost use Rattle.jh_arena.specs.table.Codes.{code_laws};

    ghost laws = { Prim.search (comparing, code_laws, rules) };
}

impl Hash for Shape {
    ghost use Rattle.jh_arena.specs.table.Codes.{code_of, code_input, same_input};

    ghost hash_input = { λ x. code_input (code_of x) };

    ghost respects_eq = { λ x y. same_input (code_of x) (code_of y) };

    fn hash<H: Hasher>(&self, state: &mut H) {
        self.code().feed(state);
    }
}

/// The parts of a shape that are no fields of a list.
#[derive(Clone, Copy, PartialEq, Eq)]
pub enum Own {
    None,
    One(usize),
    Two(usize, usize),
    Three(usize, usize, usize),
}

impl Own {
    /// The number of parts.
    pub fn count(self) -> usize
        ensures { result ≡ length (own_list self) }
    {
        match self {
            Own::None => 0,
            Own::One(_) => 1,
            Own::Two(_, _) => 2,
            Own::Three(_, _, _) => 3,
        }
    }

    /// The part of this number.
    pub fn at(self, index: usize) -> usize
        requires { index < length (own_list self) }
        ensures { slice_get (own_list self) index ≡ Some result }
    {
        match self {
            Own::None => 0,
            Own::One(a) => a,
            Own::Two(a, b) => if index == 0 { a } else { b },
            Own::Three(a, b, c) => match index {
                0 => a,
                1 => b,
                _ => c,
            },
        }
    }
}

impl Shape {
    /// The parts that are no fields of a list.
    pub fn own(self) -> Own
        ensures { own_list result ≡ own_parts self }
    {
        match self {""")
    word = {0: 'Own::None', 1: 'Own::One', 2: 'Own::Two', 3: 'Own::Three'}
    for code, ctor, variant, kinds in shapes():
        ns = names(kinds)
        own = [n for _, n in direct(kinds, ns)]
        keep = [n if n in own else '_' for n in ns]
        left = f"Shape::{variant}" + (f"({', '.join(keep)})" if ns else '')
        right = word[len(own)] + (f"({', '.join(own)})" if own else '')
        out.append(f"            {left} => {right},")
    out.append("""        }
    }

    /// The shape with other parts: with this list of fields, where it has one, and with these parts in
    /// place of its own.
    pub fn put(self, list: usize, own: &[usize]) -> Shape
        requires { length own.now ≡ length (own_parts self) }
        ensures { result ≡ put list own.now self }
    {
        match self {""")
    for code, ctor, variant, kinds in shapes():
        ns = names(kinds)
        new, i = [], 0
        for k, n in zip(kinds, ns):
            if core(k) == 'L':
                new.append('list')
            elif is_part(k):
                new.append(f"own[{i}]")
                i += 1
            else:
                new.append(n)
        keep = [n if not is_part(k) else '_' for k, n in zip(kinds, ns)]
        left = f"Shape::{variant}" + (f"({', '.join(keep)})" if ns else '')
        right = f"Shape::{variant}" + (f"({', '.join(new)})" if ns else '')
        out.append(f"            {left} => {right},")
    out.append("""        }
    }

    /// The number of the list of fields, where the shape has one.
    pub fn list(self) -> Option<usize>
        ensures { result ≡ list_of self }
    {
        match self {
            Shape::Reach(list, _, _) => Some(list),
            Shape::Tree(list) => Some(list),
            _ => None,
        }
    }

    /// How many variables the shape binds in its parts: one for a quantifier and for a comprehension, and
    /// else none.
    pub fn binders(self) -> u32
        ensures { result ≡ binders self }
    {
        match self {
            Shape::Compr(_) | Shape::All(_) | Shape::Ex(_) => 1,
            _ => 0,
        }
    }
}
""")
    return '\n'.join(out)



# ---------------------------------------------------------------- proofs: taking a node apart and putting it together

def arg_type(kind):
    return {'z': 'ℤ'}.get(core(kind), 'ℕ')


def binders_of(kinds, ns):
    return ' '.join(f"({n} : {arg_type(k)})" for k, n in zip(kinds, ns))


def shape_of(variant, ns):
    return apply('s.' + variant, ns)


def tests_of(kinds, ns):
    """(suffix, test) for each test of `fits`, in its order."""
    out = []
    for k, n in zip(kinds, ns):
        c = core(k)
        if c == 'L':
            out.append((n, f"is_some (slice_get p.lists {n})"))
            out.append(('fields', f"are_fields ts (the_list (slice_get p.lists {n}))"))
        elif fits_of(k, n):
            out.append((n, fits_of(k, n)))
    return out


COMMON = 'use Rattle.std.proofs.Common.{◌≡◌, refl, sym, ap, ◌∙◌, ℕ, zero, suc, ◌+◌, ◌<◌, ◌≤◌, ℤ, Bool, true, false, ◌&&◌, List, [], ◌∷◌, ◌++◌, length, slice_get, Some, None, is_some, arith}\nuse Rattle.std.specs.Prelude.{Option}'
ENTRIES = f"use Rattle.jh_arena.specs.table.Entries.{{Pools, Listing, the_name, the_mark, the_list, {', '.join(IS[c] for c in 'TISFP')}, {', '.join(THE[c] for c in 'TISFPV')}, are_fields, fields_at}}"
OPEN_SORTS = f"the_name the_mark the_list {' '.join(IS[c] for c in 'TISFP')} {' '.join(THE[c] for c in 'TISFPV')}"


def part_steps_file():
    out = [f"""-- What is known of the parts of a shape that fits.
{COMMON}
use Rattle.jh_form.specs.Tree.{{ValueTree}}
use Rattle.jh_form.proofs.ClosedLemmas.{{both-left, both-right}}
{ENTRIES}
{USE_SHAPES}
use Rattle.jh_arena.specs.table.Nodes.{{fits}}

module _ (p : Pools) (ts : List ValueTree) where"""]
    rules = []
    for code, ctor, variant, kinds in shapes():
        ns = names(kinds)
        tests = tests_of(kinds, ns)
        if not tests:
            continue
        whole, left, proofs = 'h', tests, []
        while len(left) > 1:
            *front, (n, test) = left
            joined = ' && '.join(t for _, t in front)
            proofs.append((n, test, f"both-right ({joined}) ({test}) {whole}"))
            whole = f"(both-left ({joined}) ({test}) {whole})"
            left = front
        proofs.append((left[0][0], left[0][1], whole))
        for n, test, proof in reversed(proofs):
            name = f"part-{variant}-{n}"
            rules.append(name)
            out.append(f"  pub {name} : {binders_of(kinds, ns)} → fits p ts {shape_of(variant, ns)} ≡ true → {test} ≡ true")
            out.append(f"  unfolding fits")
            out.append(f"  {name} {' '.join(ns)} h = {proof}")
            out.append('')
    out.append(f"pub ruleset part_steps = ({', '.join(rules)})")
    return '\n'.join(out) + '\n'


def node_steps_file():
    out = [f"""-- The tree of a shape whose parts are known, and that it fits.
{COMMON}
use Rattle.jh_boxed.specs.jh_name.declared.naming.Name.{{Name}}
use Rattle.jh_form.specs.declared.mark.Mark.{{Mark}}
{USE_TREES}
use Rattle.jh_form.specs.Tree as t
{ENTRIES}
{USE_SHAPES}
use Rattle.jh_arena.specs.table.Nodes.{{fits, shape_tree}}

module _ (p : Pools) (ts : List ValueTree) where"""]
    rules = []
    letter = {'a': 'u', 'b': 'v', 'c': 'w'}
    for code, ctor, variant, kinds in shapes():
        ns = names(kinds)
        binders, premises, hyps, tests, words = [], [], [], [], []
        for k, n in zip(kinds, ns):
            c = core(k)
            if c in ('n', 'k'):
                binders.append(f"(x : {'Name' if c == 'n' else 'Mark'})")
                premises.append(f"slice_get p.{POOL[c]} {n} ≡ Some x")
                hyps.append(f"h{n}")
                tests.append(f"is_some (h{n} i)")
                words.append(('x', f"({THE_POOL[c]} (h{n} i))"))
            elif c == 'L':
                binders.append("(ns : List ℕ) (fs : FieldTrees)")
                premises += [f"slice_get p.lists {n} ≡ Some ns", "are_fields ts ns ≡ true", "fields_at ts ns ≡ fs"]
                hyps += [f"h{n}", 'hf', 'hs']
                tests.append(f"is_some (h{n} i)")
                tests.append(f"(ap (are_fields ts) (ap the_list h{n}) ∙ hf) i")
                words.append(('fs', f"((ap (fields_at ts) (ap the_list h{n}) ∙ hs) i)"))
            elif is_part(k):
                v = letter[n]
                binders.append(f"({v} : {TREE[c]})")
                wrapped = v if c == 'V' else f"({WRAP[c]} {v})"
                premises.append(f"slice_get ts {n} ≡ Some {wrapped}")
                hyps.append(f"h{n}")
                tests.append(f"{IS[c]} (h{n} i)")
                words.append((v, f"({THE[c]} (h{n} i))"))
            else:
                words.append((n, n))
        sig = ' '.join(x for x in [binders_of(kinds, ns), ' '.join(binders)] if x)
        sig = sig + ' → ' if sig else ''
        pre = ''.join(x + ' → ' for x in premises)
        args = ' '.join(ns + [b.strip('()').split(' : ')[0] for b in ' '.join(binders).replace(') (', ')|(').split('|') if b] + hyps)
        shape = shape_of(variant, ns)
        rules += [f"fits-{variant}", f"tree-{variant}"]
        out.append(f"  pub fits-{variant} : {sig}{pre}fits p ts {shape} ≡ true")
        out.append(f"  unfolding fits {OPEN_SORTS}")
        body = f"λ i. {' && '.join(tests)}" if tests else 'refl'
        out.append(f"  {call('fits-' + variant, args.split())} = {body}")
        out.append('')
        out.append(f"  pub tree-{variant} : {sig}{pre}shape_tree p ts {shape} ≡ {WRAP[code]} {apply('t.' + ctor, [w for w, _ in words])}")
        out.append(f"  unfolding shape_tree {OPEN_SORTS}")
        body = f"λ i. {WRAP[code]} {apply('t.' + ctor, [w for _, w in words])}" if hyps else 'refl'
        out.append(f"  {call('tree-' + variant, args.split())} = {body}")
        out.append('')
    out.append(f"pub ruleset node_steps = ({', '.join(rules)})")
    return '\n'.join(out) + '\n'


def part_proof(variant, ns, n, where='p ts'):
    return f"(part-{variant}-{n} {where} {' '.join(ns)} h)"


def stays(kind, variant, ns, n):
    """The path from the new look-up to the old one."""
    c = core(kind)
    word = {'n': 'name', 'k': 'mark', 'T': 'object', 'I': 'number', 'S': 'set', 'F': 'field', 'P': 'truth', 'V': 'value', 'L': 'list'}[c]
    return f"{word}-stays {n} {part_proof(variant, ns, n)} i"


def growing_file():
    out = [f"""-- A shape that fits keeps its tree, its parts and that it fits, where the table grows.
{COMMON}
use Rattle.jh_boxed.specs.jh_name.declared.naming.Name.{{Name}}
use Rattle.jh_form.specs.declared.mark.Mark.{{Mark}}
{USE_TREES}
use Rattle.jh_form.specs.Tree as t
use Rattle.std.proofs.lemmas.Bool.{{true≢false}}
use Rattle.jh_form.proofs.ClosedLemmas.{{both-left, both-right}}
{ENTRIES}
{USE_SHAPES}
use Rattle.jh_arena.specs.table.Nodes.{{fits, shape_tree}}
use Rattle.jh_arena.specs.table.Growth.{{Grows}}
use Rattle.jh_arena.specs.table.Parts.{{list_parts, own_parts, parts}}
use Rattle.jh_arena.proofs.table.PartSteps as step
use Rattle.jh_arena.proofs.table.PartSteps.{{{{steps}}}}

pub some-stays : {{X : Type 0}} (old new : List X) → Grows old new → (n : ℕ) → is_some (slice_get old n) ≡ true → slice_get new n ≡ slice_get old n
some-stays {{X}} old new g n h = by (slice_get old n) refl h
  where
    by : (o : Option X) → slice_get old n ≡ o → is_some o ≡ true → slice_get new n ≡ slice_get old n
    by (Some v) e k = g.keeps n v e ∙ sym e
    by None e k = absurd (true≢false (sym k))
"""]
    for c in 'TISFP':
        word = {'T': 'object', 'I': 'number', 'S': 'set', 'F': 'field', 'P': 'truth'}[c]
        out.append(f"""pub {word}-some : (o : Option ValueTree) → {IS[c]} o ≡ true → is_some o ≡ true
unfolding {IS[c]}
{word}-some None h = absurd (true≢false (sym h))
{word}-some (Some v) h = refl
""")
    out.append("""module _ (p q : Pools) (ts us : List ValueTree) (names : Grows p.names q.names) (marks : Grows p.marks q.marks) (lists : Grows p.lists q.lists) (trees : Grows ts us) where
  name-stays : (n : ℕ) → is_some (slice_get p.names n) ≡ true → slice_get q.names n ≡ slice_get p.names n
  name-stays n h = some-stays p.names q.names names n h

  mark-stays : (n : ℕ) → is_some (slice_get p.marks n) ≡ true → slice_get q.marks n ≡ slice_get p.marks n
  mark-stays n h = some-stays p.marks q.marks marks n h

  list-stays : (n : ℕ) → is_some (slice_get p.lists n) ≡ true → slice_get q.lists n ≡ slice_get p.lists n
  list-stays n h = some-stays p.lists q.lists lists n h

  value-stays : (n : ℕ) → is_some (slice_get ts n) ≡ true → slice_get us n ≡ slice_get ts n
  value-stays n h = some-stays ts us trees n h
""")
    for c in 'TISFP':
        word = {'T': 'object', 'I': 'number', 'S': 'set', 'F': 'field', 'P': 'truth'}[c]
        out.append(f"""  {word}-stays : (n : ℕ) → {IS[c]} (slice_get ts n) ≡ true → slice_get us n ≡ slice_get ts n
  {word}-stays n h = value-stays n ({word}-some (slice_get ts n) h)
""")
    out.append("""  pub fields-stay : (ns : List ℕ) → are_fields ts ns ≡ true → fields_at us ns ≡ fields_at ts ns
  unfolding are_fields fields_at
  fields-stay [] h = refl
  fields-stay (n ∷ ns) h = λ i. more (the_field (field-stays n (both-left (is_field (slice_get ts n)) (are_fields ts ns) h) i)) (fields-stay ns (both-right (is_field (slice_get ts n)) (are_fields ts ns) h) i)

  pub are_fields-stay : (ns : List ℕ) → are_fields ts ns ≡ true → are_fields us ns ≡ are_fields ts ns
  unfolding are_fields
  are_fields-stay [] h = refl
  are_fields-stay (n ∷ ns) h = λ i. is_field (field-stays n (both-left (is_field (slice_get ts n)) (are_fields ts ns) h) i) && are_fields-stay ns (both-right (is_field (slice_get ts n)) (are_fields ts ns) h) i

  pub shape_tree-stays : (x : Shape) → fits p ts x ≡ true → shape_tree q us x ≡ shape_tree p ts x
  unfolding shape_tree""")
    for code, ctor, variant, kinds in shapes():
        ns = names(kinds)
        words = []
        for k, n in zip(kinds, ns):
            c = core(k)
            if c in ('n', 'k'):
                words.append(f"({THE_POOL[c]} ({stays(k, variant, ns, n)}))")
            elif c == 'L':
                both = f"(ap (λ o. fields_at us (the_list o)) (list-stays {n} {part_proof(variant, ns, n)}) ∙ fields-stay (the_list (slice_get p.lists {n})) {part_proof(variant, ns, 'fields')})"
                words.append(f"({both} i)")
            elif is_part(k):
                words.append(f"({THE[c]} ({stays(k, variant, ns, n)}))")
            else:
                words.append(n)
        plain = not any(is_part(k) or core(k) in ('n', 'k') for k in kinds)
        body = 'refl' if plain else f"λ i. {WRAP[code]} {apply('t.' + ctor, words)}"
        out.append(f"  shape_tree-stays {shape_of(variant, ns)} h = {body}")
    out.append("""
  pub fits-stays : (x : Shape) → fits p ts x ≡ true → fits q us x ≡ true
  unfolding fits""")
    for code, ctor, variant, kinds in shapes():
        ns = names(kinds)
        words = []
        for k, n in zip(kinds, ns):
            c = core(k)
            if c in ('n', 'k'):
                words.append(f"is_some ({stays(k, variant, ns, n)})")
            elif c == 'L':
                words.append(f"is_some ({stays(k, variant, ns, n)})")
                words.append(f"(ap (λ o. are_fields us (the_list o)) (list-stays {n} {part_proof(variant, ns, n)}) ∙ are_fields-stay (the_list (slice_get p.lists {n})) {part_proof(variant, ns, 'fields')}) i")
            elif is_part(k):
                words.append(f"{IS[c]} ({stays(k, variant, ns, n)})")
        body = 'refl' if not words else f"(λ i. {' && '.join(words)}) ∙ h"
        out.append(f"  fits-stays {shape_of(variant, ns)} h = {body}")
    out.append("""
  pub list_parts-stay : (x : Shape) → fits p ts x ≡ true → list_parts q.lists x ≡ list_parts p.lists x
  unfolding list_parts""")
    for code, ctor, variant, kinds in shapes():
        ns = names(kinds)
        body = 'refl'
        if has_list(kinds):
            body = f"ap the_list (list-stays l {part_proof(variant, ns, 'l')})"
        out.append(f"  list_parts-stay {shape_of(variant, ns)} h = {body}")
    out.append("""
  pub parts-stay : (x : Shape) → fits p ts x ≡ true → parts q.lists x ≡ parts p.lists x
  parts-stay x h = ap (λ ns. ns ++ own_parts x) (list_parts-stay x h)
""")
    text = '\n'.join(out)
    import re
    used = sorted(set(re.findall(r'part-[A-Za-z]+-[a-z]+', text)))
    return text.replace('use Rattle.jh_arena.proofs.table.PartSteps as step\n', '').replace('{{steps}}', '{' + ', '.join(used) + '}')


WORD = {'T': 'object', 'I': 'number', 'S': 'set', 'F': 'field', 'P': 'truth', 'V': 'value'}
STEPS_USED = 'use Rattle.jh_arena.proofs.table.PartSteps.{{steps}}'


def with_steps(text):
    import re
    used = sorted(set(re.findall(r'part-[A-Za-z]+-[a-z]+', text)))
    return text.replace('{{steps}}', '{' + ', '.join(used) + '}')


def pairs(items):
    return ''.join(f"({x}, " for x in items) + 'tt' + ')' * len(items)


def below_file():
    out = [f"""-- The parts of a shape that fits stand in the list.
{COMMON}
use Rattle.std.proofs.lemmas.Option.{{slice_get_within}}
use Rattle.std.proofs.lemmas.Bool.{{true≢false}}
use Rattle.jh_form.specs.Tree.{{ValueTree}}
use Rattle.jh_form.proofs.ClosedLemmas.{{both-left, both-right}}
{ENTRIES}
{USE_SHAPES}
use Rattle.jh_arena.specs.table.Nodes.{{fits}}
use Rattle.jh_arena.specs.table.Parts.{{list_parts, own_parts, parts}}
use Rattle.jh_arena.proofs.table.Growing.{{{', '.join(WORD[c] + '-some' for c in 'TISFP')}}}
{STEPS_USED}

-- each number of the list is below n
abbrev pub Below : ℕ → List ℕ → Type 0
Below n [] = Unit {{0}}
Below n (x ∷ xs) = (x < n) × Below n xs

pub below-append : (n : ℕ) (xs ys : List ℕ) → Below n xs → Below n ys → Below n (xs ++ ys)
below-append n [] ys h k = k
below-append n (x ∷ xs) ys h k = (h.0, below-append n xs ys h.1 k)

pub below-at : (n : ℕ) (xs : List ℕ) (i k : ℕ) → Below n xs → slice_get xs i ≡ Some k → k < n
below-at n [] i k h e = absurd (cc)
below-at n (x ∷ xs) zero k h e = let same : x ≡ k = cc in omega (arith, h.0)
below-at n (x ∷ xs) (suc i) k h e = below-at n xs i k h.1 e

pub inside : {{X : Type 0}} (xs : List X) (n : ℕ) → is_some (slice_get xs n) ≡ true → n < length xs
inside {{X}} xs n h = by (slice_get xs n) refl h
  where
    by : (o : Option X) → slice_get xs n ≡ o → is_some o ≡ true → n < length xs
    by (Some v) e k = slice_get_within xs n v e
    by None e k = absurd (true≢false (sym k))

module _ (p : Pools) (ts : List ValueTree) where
  fields-below : (ns : List ℕ) → are_fields ts ns ≡ true → Below (length ts) ns
  unfolding are_fields
  fields-below [] h = tt
  fields-below (n ∷ ns) h = (inside ts n (field-some (slice_get ts n) (both-left (is_field (slice_get ts n)) (are_fields ts ns) h)), fields-below ns (both-right (is_field (slice_get ts n)) (are_fields ts ns) h))

  list_parts-below : (x : Shape) → fits p ts x ≡ true → Below (length ts) (list_parts p.lists x)
  unfolding list_parts"""]
    for code, ctor, variant, kinds in shapes():
        ns = names(kinds)
        body = 'tt'
        if has_list(kinds):
            body = f"fields-below (the_list (slice_get p.lists l)) {part_proof(variant, ns, 'fields')}"
        out.append(f"  list_parts-below {shape_of(variant, ns)} h = {body}")
    out.append("""
  own_parts-below : (x : Shape) → fits p ts x ≡ true → Below (length ts) (own_parts x)
  unfolding own_parts""")
    for code, ctor, variant, kinds in shapes():
        ns = names(kinds)
        items = []
        for k, n in direct(kinds, ns):
            proof = part_proof(variant, ns, n)
            if core(k) != 'V':
                proof = f"({WORD[core(k)]}-some (slice_get ts {n}) {proof})"
            items.append(f"inside ts {n} {proof}")
        out.append(f"  own_parts-below {shape_of(variant, ns)} h = {pairs(items)}")
    out.append("""
  pub parts-below : (x : Shape) → fits p ts x ≡ true → (i k : ℕ) → slice_get (parts p.lists x) i ≡ Some k → k < length ts
  parts-below x h i k e = below-at (length ts) (parts p.lists x) i k (below-append (length ts) (list_parts p.lists x) (own_parts x) (list_parts-below x h) (own_parts-below x h)) e
""")
    return with_steps('\n'.join(out))


SIZE = {'T': 'term', 'I': 'int', 'S': 'set', 'F': 'field', 'P': 'formula', 'V': 'value', 'L': 'fields'}


def extents_file():
    sizes = ', '.join(SIZE[c] + '_size' for c in 'TISFVPL')
    depths = ', '.join(SIZE[c] + '_depth' for c in 'TISFVPL')
    open_sizes = sizes.replace(',', '')
    open_depths = depths.replace(',', '')
    out = [f"""-- The size and the depth of a shape's tree, from those of its parts.
{COMMON.replace('arith}', 'max, arith}')}
use Rattle.std.proofs.lemmas.Bool.{{true≢false}}
{USE_TREES}
use Rattle.jh_form.specs.Tree as t
use Rattle.jh_form.proofs.ClosedLemmas.{{both-left, both-right}}
use Rattle.jh_boxed.specs.Sizes.{{{sizes}, {depths}}}
{ENTRIES}
{USE_SHAPES}
use Rattle.jh_arena.specs.table.Nodes.{{fits, shape_tree}}
use Rattle.jh_arena.specs.table.Parts.{{list_parts, own_parts, parts}}
{STEPS_USED}

-- the size and the depth of the node at a place
abbrev pub size_at : List ValueTree → ℕ → ℕ
size_at ts n = value_size (the_value (slice_get ts n))

abbrev pub depth_at : List ValueTree → ℕ → ℕ
depth_at ts n = value_depth (the_value (slice_get ts n))

-- the sum of the sizes, and the greatest depth
abbrev pub size_sum : List ValueTree → List ℕ → ℕ
size_sum ts [] = 0
size_sum ts (n ∷ ns) = size_at ts n + size_sum ts ns

abbrev pub depth_max : List ValueTree → List ℕ → ℕ
depth_max ts [] = 0
depth_max ts (n ∷ ns) = max (depth_at ts n) (depth_max ts ns)

pub max-zero : (n : ℕ) → max n 0 ≡ n
max-zero n = omega arith

pub max-assoc : (a b c : ℕ) → max (max a b) c ≡ max a (max b c)
max-assoc a b c = omega arith

pub size_sum-append : (ts : List ValueTree) (xs ys : List ℕ) → size_sum ts (xs ++ ys) ≡ size_sum ts xs + size_sum ts ys
size_sum-append ts [] ys = omega arith
size_sum-append ts (x ∷ xs) ys = omega (arith, size_sum-append ts xs ys)

pub depth_max-append : (ts : List ValueTree) (xs ys : List ℕ) → depth_max ts (xs ++ ys) ≡ max (depth_max ts xs) (depth_max ts ys)
depth_max-append ts [] ys = omega arith
depth_max-append ts (x ∷ xs) ys = ap (λ z. max (depth_at ts x) z) (depth_max-append ts xs ys) ∙ sym (max-assoc (depth_at ts x) (depth_max ts xs) (depth_max ts ys))
"""]
    for c in 'TISFP':
        for notion in ('size', 'depth'):
            fn = f"{SIZE[c]}_{notion}"
            out.append(f"""{notion}-{WORD[c]} : (o : Option ValueTree) → {IS[c]} o ≡ true → {fn} ({THE[c]} o) ≡ value_{notion} (the_value o)
unfolding {IS[c]} {THE[c]} the_value {open_sizes if notion == 'size' else open_depths}
{notion}-{WORD[c]} None h = absurd (true≢false (sym h))""")
            for d in 'TISFP':
                body = 'refl' if c == d else 'absurd (true≢false (sym h))'
                out.append(f"{notion}-{WORD[c]} (Some ({WRAP[d]} v)) h = {body}")
            out.append('')
    out.append(f"""module _ (p : Pools) (ts : List ValueTree) where
  size-fields : (ns : List ℕ) → are_fields ts ns ≡ true → fields_size (fields_at ts ns) ≡ size_sum ts ns
  unfolding are_fields fields_at {open_sizes}
  size-fields [] h = refl
  size-fields (n ∷ ns) h = λ i. size-field (slice_get ts n) (both-left (is_field (slice_get ts n)) (are_fields ts ns) h) i + size-fields ns (both-right (is_field (slice_get ts n)) (are_fields ts ns) h) i

  depth-fields : (ns : List ℕ) → are_fields ts ns ≡ true → fields_depth (fields_at ts ns) ≡ depth_max ts ns
  unfolding are_fields fields_at {open_depths}
  depth-fields [] h = refl
  depth-fields (n ∷ ns) h = λ i. max (depth-field (slice_get ts n) (both-left (is_field (slice_get ts n)) (are_fields ts ns) h) i) (depth-fields ns (both-right (is_field (slice_get ts n)) (are_fields ts ns) h) i)

  size-shape : (x : Shape) → fits p ts x ≡ true → value_size (shape_tree p ts x) ≡ 1 + (size_sum ts (list_parts p.lists x) + size_sum ts (own_parts x))
  unfolding shape_tree list_parts own_parts {open_sizes}""")

    def part_paths(variant, kinds, ns, notion):
        paths = []
        for k, n in zip(kinds, ns):
            c = core(k)
            if c == 'L':
                paths.append(f"{notion}-fields (the_list (slice_get p.lists {n})) {part_proof(variant, ns, 'fields')}")
            elif is_part(k) and c != 'V':
                paths.append(f"{notion}-{WORD[c]} (slice_get ts {n}) {part_proof(variant, ns, n)}")
        return paths
    for code, ctor, variant, kinds in shapes():
        ns = names(kinds)
        facts = part_paths(variant, kinds, ns, 'size')
        body = 'omega (arith' + ''.join(', ' + f for f in facts) + ')' if facts else 'omega arith'
        out.append(f"  size-shape {shape_of(variant, ns)} h = {body}")
    out.append(f"""
  depth-shape : (x : Shape) → fits p ts x ≡ true → value_depth (shape_tree p ts x) ≡ 1 + max (depth_max ts (list_parts p.lists x)) (depth_max ts (own_parts x))
  unfolding shape_tree list_parts own_parts {open_depths}""")
    for code, ctor, variant, kinds in shapes():
        ns = names(kinds)
        facts = part_paths(variant, kinds, ns, 'depth')
        body = 'omega (arith' + ''.join(', ' + f for f in facts) + ')' if facts else 'omega arith'
        out.append(f"  depth-shape {shape_of(variant, ns)} h = {body}")
    out.append("""
  pub size-parts : (x : Shape) → fits p ts x ≡ true → value_size (shape_tree p ts x) ≡ 1 + size_sum ts (parts p.lists x)
  size-parts x h = omega (arith, size-shape x h, size_sum-append ts (list_parts p.lists x) (own_parts x))

  pub depth-parts : (x : Shape) → fits p ts x ≡ true → value_depth (shape_tree p ts x) ≡ 1 + depth_max ts (parts p.lists x)
  depth-parts x h = depth-shape x h ∙ ap (λ z. 1 + z) (sym (depth_max-append ts (list_parts p.lists x) (own_parts x)))
""")
    return with_steps('\n'.join(out))


def find_of(kinds):
    return {'n': 'find_name', 'k': 'find_mark', 'L': 'find_list'}


def places_file():
    place = {'T': 'term', 'I': 'int', 'S': 'set', 'F': 'field', 'P': 'formula', 'V': 'value', 'L': 'fields'}
    out = [f"""-- The place of a tree, from the places of its parts. So no two places hold the same tree.
{COMMON.replace('arith}', 'subst, arith}')}
use Rattle.std.proofs.lemmas.Bool.{{true≢false}}
use Rattle.jh_boxed.specs.jh_name.declared.naming.Name.{{Name}}
use Rattle.jh_form.specs.declared.mark.Mark.{{Mark}}
{USE_TREES}
use Rattle.jh_form.specs.Tree as t
use Rattle.jh_form.proofs.ClosedLemmas.{{both-left, both-right}}
{ENTRIES}
{USE_SHAPES}
use Rattle.jh_arena.specs.table.Nodes.{{fits, shape_tree}}
use Rattle.jh_arena.proofs.table.Growing.{{{', '.join(WORD[c] + '-some' for c in 'TISFP')}}}
{STEPS_USED}

-- where names, labels, lists and shapes stand
pub record Finder : Type 0 where
  pub name : Name → ℕ
  pub mark : Mark → ℕ
  pub list : List ℕ → ℕ
  pub shape : Shape → ℕ

module _ (f : Finder) where
  unfoldable mutual"""]
    for code in ORDER:
        rust, tree, fn, variants = TYPES[code]
        out.append(f"    place_{place[code]} : {tree} → ℕ")
        for _, ctor, kinds in variants:
            ns, parts = [], iter('abcd')
            words = []
            for k in kinds:
                c = core(k)
                if c == 'L':
                    ns.append('fs')
                    words.append('(f.list (place_fields fs))')
                elif is_part(k):
                    n = next(parts)
                    ns.append(n)
                    words.append(f"(place_{place[c]} {n})")
                else:
                    n = {'u': 'k', 'n': 'x', 'z': 'z', 'k': 'k'}[c]
                    ns.append(n)
                    words.append({'n': '(f.name x)', 'k': '(f.mark k)'}.get(c, n))
            left = apply('t.' + ctor, ns)
            if code == 'V':
                out.append(f"    place_value {left} = place_{place[core(kinds[0])]} a")
            else:
                out.append(f"    place_{place[code]} {left} = f.shape {apply('s.' + camel(ctor), words)}")
        out.append('')
    out.append("""    place_fields : FieldTrees → List ℕ
    place_fields t.none = []
    place_fields (t.more a fs) = place_field a ∷ place_fields fs

  pub place : ValueTree → ℕ
  place v = place_value v
""")
    opened = ' '.join(f"place_{place[c]}" for c in 'TISFVPL')
    for c in 'TISFP':
        out.append(f"""  place-{WORD[c]} : (o : Option ValueTree) → {IS[c]} o ≡ true → place_{place[c]} ({THE[c]} o) ≡ place_value (the_value o)
  unfolding {IS[c]} {THE[c]} the_value {opened}
  place-{WORD[c]} None h = absurd (true≢false (sym h))""")
        for d in 'TISFP':
            body = 'refl' if c == d else 'absurd (true≢false (sym h))'
            out.append(f"  place-{WORD[c]} (Some ({WRAP[d]} v)) h = {body}")
        out.append('')
    out.append(f"""  -- the finder knows the pools, and the places of all trees of the list
  pub record Knows (p : Pools) (ts : List ValueTree) : Type 0 where
    pub names : (n : ℕ) (x : Name) → slice_get p.names n ≡ Some x → f.name x ≡ n
    pub marks : (n : ℕ) (x : Mark) → slice_get p.marks n ≡ Some x → f.mark x ≡ n
    pub lists : (n : ℕ) (x : List ℕ) → slice_get p.lists n ≡ Some x → f.list x ≡ n
    pub nodes : (n : ℕ) (v : ValueTree) → slice_get ts n ≡ Some v → place v ≡ n

  module _ (p : Pools) (ts : List ValueTree) (knows : Knows p ts) where
    unfolding the_name
    find-name : (n : ℕ) (o : Option Name) → slice_get p.names n ≡ o → is_some o ≡ true → f.name (the_name o) ≡ n
    find-name n None e h = absurd (true≢false (sym h))
    find-name n (Some x) e h = knows.names n x e
""".replace("    unfolding the_name\n    find-name : (n : ℕ) (o : Option Name) → slice_get p.names n ≡ o → is_some o ≡ true → f.name (the_name o) ≡ n\n", "    find-name : (n : ℕ) (o : Option Name) → slice_get p.names n ≡ o → is_some o ≡ true → f.name (the_name o) ≡ n\n    unfolding the_name\n"))
    out.append("""    find-mark : (n : ℕ) (o : Option Mark) → slice_get p.marks n ≡ o → is_some o ≡ true → f.mark (the_mark o) ≡ n
    unfolding the_mark
    find-mark n None e h = absurd (true≢false (sym h))
    find-mark n (Some x) e h = knows.marks n x e

    find-list : (n : ℕ) (o : Option (List ℕ)) → slice_get p.lists n ≡ o → is_some o ≡ true → f.list (the_list o) ≡ n
    unfolding the_list
    find-list n None e h = absurd (true≢false (sym h))
    find-list n (Some x) e h = knows.lists n x e

    find-value : (n : ℕ) (o : Option ValueTree) → slice_get ts n ≡ o → is_some o ≡ true → place_value (the_value o) ≡ n
    unfolding the_value place
    find-value n None e h = absurd (true≢false (sym h))
    find-value n (Some x) e h = knows.nodes n x e
""")
    for c in 'TISFP':
        out.append(f"""    find-{WORD[c]} : (n : ℕ) → {IS[c]} (slice_get ts n) ≡ true → place_{place[c]} ({THE[c]} (slice_get ts n)) ≡ n
    find-{WORD[c]} n h = place-{WORD[c]} (slice_get ts n) h ∙ find-value n (slice_get ts n) refl ({WORD[c]}-some (slice_get ts n) h)
""")
    out.append(f"""    find-fields : (ns : List ℕ) → are_fields ts ns ≡ true → place_fields (fields_at ts ns) ≡ ns
    unfolding are_fields fields_at {opened}
    find-fields [] h = refl
    find-fields (n ∷ ns) h = λ i. find-field n (both-left (is_field (slice_get ts n)) (are_fields ts ns) h) i ∷ find-fields ns (both-right (is_field (slice_get ts n)) (are_fields ts ns) h) i

    -- the place of a shape's tree is where the shape stands
    pub place-shape : (x : Shape) → fits p ts x ≡ true → place (shape_tree p ts x) ≡ f.shape x
    unfolding shape_tree place {opened}""")
    for code, ctor, variant, kinds in shapes():
        ns = names(kinds)
        words = []
        for k, n in zip(kinds, ns):
            c = core(k)
            proof = None
            if c == 'n':
                words.append(f"(find-name {n} (slice_get p.names {n}) refl {part_proof(variant, ns, n)} i)")
            elif c == 'k':
                words.append(f"(find-mark {n} (slice_get p.marks {n}) refl {part_proof(variant, ns, n)} i)")
            elif c == 'L':
                words.append(f"((ap f.list (find-fields (the_list (slice_get p.lists {n})) {part_proof(variant, ns, 'fields')}) ∙ find-list {n} (slice_get p.lists {n}) refl {part_proof(variant, ns, n)}) i)")
            elif c == 'V':
                words.append(f"(find-value {n} (slice_get ts {n}) refl {part_proof(variant, ns, n)} i)")
            elif is_part(k):
                words.append(f"(find-{WORD[c]} {n} {part_proof(variant, ns, n)} i)")
            else:
                words.append(n)
        plain = not any(is_part(k) or core(k) in ('n', 'k') for k in kinds)
        body = 'refl' if plain else f"λ i. f.shape {apply('s.' + variant, words)}"
        out.append(f"    place-shape {shape_of(variant, ns)} h = {body}")
    return with_steps('\n'.join(out) + '\n')


def code_words(kinds, ns):
    """The constant and the three numbers of a shape's code."""
    numbers = [n for k, n in zip(kinds, ns) if core(k) != 'z'] + ['0'] * 3
    constant = [n for k, n in zip(kinds, ns) if core(k) == 'z']
    return constant, numbers[:3]


def codes_spec():
    out = [f"""-- A shape as numbers alone, and the shape of such numbers.
use Rattle.std.specs.Prelude.{{◌≡◌, ℕ, ℤ, pos, Bool, true, ◌&&◌, nat_eq, ◌++◌, if◌then◌else◌, ◌==◌}}
use Rattle.std.specs.Ordering.{{on, int_eq, eq_of_both}}
use Rattle.std.specs.Cmp.{{IsEquivalence}}
use Rattle.std.specs.Cmp.Rules.{{comparing}}
use Rattle.std.specs.Hash as fed
use Rattle.std.proofs.Common.{{ap, rules}}
use Rattle.std.proofs.lemmas.Bool.Decides.{{Decides-eqb, Decides-int_eq}}
use Rattle.jh_form.proofs.ClosedLemmas.{{both-left, both-right}}
use Rattle.jh_arena.specs.declared.table.codes.Code.{{Code}}
{USE_SHAPES}

abbrev pub code : ℕ → ℤ → ℕ → ℕ → ℕ → Code
code kind constant first second third = record {{ kind = kind; constant = constant; first = first; second = second; third = third }}

unfoldable pub code_of : Shape → Code"""]
    for kind, (_, ctor, variant, kinds) in enumerate(shapes()):
        ns = names(kinds)
        constant, numbers = code_words(kinds, ns)
        out.append(f"code_of {shape_of(variant, ns)} = code {kind} {constant[0] if constant else '(pos 0)'} {' '.join(numbers)}")
    out.append("""
-- what two shapes are told apart by
abbrev pub same_numbers : Code → Code → Bool
same_numbers = eq_of_both (on (λ c. c.first) nat_eq) (eq_of_both (on (λ c. c.second) nat_eq) (on (λ c. c.third) nat_eq))

abbrev pub same_code : Code → Code → Bool
same_code = eq_of_both (on (λ c. c.kind) nat_eq) (eq_of_both (on (λ c. c.constant) int_eq) same_numbers)

-- both tests are equivalences
numbers_laws : IsEquivalence same_numbers
numbers_laws = search (comparing, rules)

pub code_laws : IsEquivalence same_code
code_laws = search (comparing, numbers_laws, rules)

-- what a shape gives to a hash
abbrev pub code_input : Code → fed.HashWrites
code_input c = fed.u8 c.kind ++ fed.i64 c.constant ++ fed.usize c.first ++ fed.usize c.second ++ fed.usize c.third

pub same_is : (c d : Code) → same_code c d ≡ true → c ≡ d
same_is c d h =
    let kind = nat_eq c.kind d.kind in
    let constant = int_eq c.constant d.constant in
    let first = nat_eq c.first d.first in
    let second = nat_eq c.second d.second in
    let third = nat_eq c.third d.third in
    let later = both-right kind (constant && (first && (second && third))) h in
    let numbers = both-right constant (first && (second && third)) later in
    let last = both-right first (second && third) numbers in
    let k = (Decides-eqb c.kind d.kind).0 (both-left kind (constant && (first && (second && third))) h) in
    let z = (Decides-int_eq c.constant d.constant).0 (both-left constant (first && (second && third)) later) in
    let x = (Decides-eqb c.first d.first).0 (both-left first (second && third) numbers) in
    let y = (Decides-eqb c.second d.second).0 (both-left second third last) in
    let w = (Decides-eqb c.third d.third).0 (both-right second third last) in
    λ i. record { kind = k i; constant = z i; first = x i; second = y i; third = w i }

pub same_input : (c d : Code) → same_code c d ≡ true → code_input c ≡ code_input d
same_input c d h = ap code_input (same_is c d h)""")
    return '\n'.join(out) + '\n'


def codes_code():
    out = ["""#![tactic(auto, unfolding(crate::specs::table::Codes::code_of))]

ghost use Rattle.std.specs.Prelude.{◌≡◌, ◌++◌, fold};
ghost use Rattle.jh_arena.specs.table.Codes.{code, code_of, code_input, same_code, same_numbers};

use crate::table::Shape;
use std::hash::{Hash, Hasher};

/// A shape as numbers alone: which constructor it is, its constant, and its other arguments in their order. What it
/// has none of is 0.
#[derive(Clone, Copy)]
pub(crate) struct Code {
    kind: u8,
    constant: i64,
    first: usize,
    second: usize,
    third: usize,
}

fn coded(kind: u8, constant: i64, first: usize, second: usize, third: usize) -> Code
    ensures { result ≡ code kind constant first second third }
{
    Code {
        kind,
        constant,
        first,
        second,
        third,
    }
}

impl Code {
    fn has_numbers_of(self, other: Code) -> bool
        ensures { result ≡ same_numbers self other }
    {
        self.first == other.first && self.second == other.second && self.third == other.third
    }

    /// Whether it is the code of the same shape.
    pub(crate) fn is(self, other: Code) -> bool
        ensures { result ≡ same_code self other }
    {
        self.kind == other.kind
            && self.constant == other.constant
            && self.has_numbers_of(other)
    }

    /// Gives its numbers to a hash.
    pub(crate) fn feed<H: Hasher>(self, state: &mut H)
        ensures { state.new ≡ fold H.write state.old (code_input self) }
    {
        self.kind.hash(state);
        self.constant.hash(state);
        self.first.hash(state);
        self.second.hash(state);
        self.third.hash(state);
    }
}

impl Shape {
    /// The shape as numbers.
    pub(crate) fn code(self) -> Code
        ensures { result ≡ code_of self }
    {
        match self {"""]
    for kind, (_, ctor, variant, kinds) in enumerate(shapes()):
        ns = names(kinds)
        constant, numbers = code_words(kinds, ns)
        word = {'k': 'number', 'z': 'constant', 'n': 'name', 'm': 'mark', 'l': 'list'}
        shown = [f"{word.get(n, n)} as usize" if kinds == ['u'] and n == 'k' else word.get(n, n) for n in numbers]
        left = f"Shape::{variant}" + (f"({', '.join(word.get(n, n) for n in ns)})" if ns else '')
        out.append(f"            {left} => coded({kind}, {'constant' if constant else '0'}, {', '.join(shown)}),")
    out.append("""        }
    }
}
""")
    return '\n'.join(out)


def shape_eq_file():
    out = [f"""-- The test of equality of shapes: it says true of a shape and itself, and of no two.
use Rattle.std.proofs.Common.{{◌≡◌, refl, sym, ap, ◌∙◌, ℕ, true, ◌&&◌, nat_eq}}
use Rattle.std.specs.Prelude.{{if◌then◌else◌, ◌==◌}}
use Rattle.std.specs.Ordering.{{int_eq}}
use Rattle.std.proofs.lemmas.Bool.Decides.{{Decides-eqb, Decides-int_eq}}
{USE_SHAPES}
use Rattle.jh_arena.specs.declared.table.codes.Code.{{Code}}
use Rattle.jh_arena.specs.table.Codes.{{code_of, same_code, same_is}}
use Rattle.jh_arena.specs.contracts.table.shapes.ShapePartialEq.TheImpl.{{ghosts}}

-- the shape of a code
unfoldable shape_in : Code → Shape"""]
    shown = list(shapes())
    lines = []
    for kind, (code, ctor, variant, kinds) in enumerate(shown):
        fields = iter(('c.first', 'c.second', 'c.third'))
        args = ['c.constant' if core(k) == 'z' else next(fields) for k in kinds]
        lines.append((kind, apply('s.' + variant, args)))
    text = lines[-1][1]
    for kind, shape in reversed(lines[:-1]):
        text = f"if c.kind == {kind} then {shape} else ({text})" if kind < len(lines) - 2 else f"if c.kind == {kind} then {shape} else {text}"
    out.append(f"shape_in c = {text}")
    out.append('')
    out.append("back : (x : Shape) → shape_in (code_of x) ≡ x")
    out.append("unfolding code_of shape_in")
    for code, ctor, variant, kinds in shown:
        out.append(f"back {shape_of(variant, names(kinds))} = refl")
    out.append("""
pub shape_eq-true : (x y : Shape) → ghosts.eq x y ≡ true → x ≡ y
shape_eq-true x y h = sym (back x) ∙ (ap shape_in (same_is (code_of x) (code_of y) h) ∙ back y)

same-itself : (c : Code) → same_code c c ≡ true
same-itself c =
    let k = (Decides-eqb c.kind c.kind).1 refl in
    let z = (Decides-int_eq c.constant c.constant).1 refl in
    let x = (Decides-eqb c.first c.first).1 refl in
    let y = (Decides-eqb c.second c.second).1 refl in
    let w = (Decides-eqb c.third c.third).1 refl in
    λ i. k i && (z i && (x i && (y i && w i)))

pub shape_eq-same : (x : Shape) → ghosts.eq x x ≡ true
shape_eq-same x = same-itself (code_of x)""")
    return '\n'.join(out) + '\n'


def children_file():
    from forms import TYPES as T
    out = [f"""-- The parts of a node are nodes of the table, also as parts of a tree.
{COMMON}
use Rattle.std.proofs.lemmas.Bool.{{true≢false}}
{USE_TREES}
use Rattle.jh_form.specs.Tree as t
use Rattle.jh_form.proofs.ClosedLemmas.{{both-left, both-right}}
use Rattle.jh_boxed.specs.Parts.{{Among, first, later, IsChild}}
use Rattle.jh_boxed.specs.Parts as c
{ENTRIES}
{USE_SHAPES}
use Rattle.jh_arena.specs.table.Nodes.{{fits, shape_tree}}
{STEPS_USED}

-- each field of a list
unfoldable pub EachField : (ValueTree → Type 0) → FieldTrees → Type 0
EachField P t.none = Unit {{0}}
EachField P (t.more f fs) = P (of_field f) × EachField P fs

-- each part that stands directly under a node
unfoldable pub EachPart : (ValueTree → Type 0) → ValueTree → Type 0"""]
    cases, lines = [], []
    for code in ORDER:
        if code == 'V':
            continue
        for _, ctor, kinds in T[code][3]:
            ns, parts = [], iter('abcd')
            tests, proofs = [], []
            for k in kinds:
                c = core(k)
                if c == 'L':
                    ns.append('fs')
                    tests.append('EachField P fs')
                elif is_part(k):
                    n = next(parts)
                    ns.append(n)
                    tests.append(f"P {n}" if c == 'V' else f"P ({WRAP[c]} {n})")
                else:
                    ns.append({'u': 'k', 'n': 'x', 'z': 'z', 'k': 'k'}[c])
            out.append(f"EachPart P ({WRAP[code]} {apply('t.' + ctor, ns)}) = {' × '.join(tests) if tests else 'Unit {0}'}")
            # the constructors of IsChild, as forms.py names them
            many = sum(1 for k in kinds if is_part(k)) > 1
            i = 0
            for k, n in zip(kinds, ns):
                c = core(k)
                if not is_part(k):
                    continue
                count = sum(1 for q in kinds if is_part(q))
                got = f"h.{i}" if count > 1 else 'h'
                if c == 'L':
                    lines.append(f"part-of P _ _ (c.{ctor}-field f {' '.join(ns)} m) h = field-of P f fs m {got if count > 1 else 'h'}")
                else:
                    name = f"{ctor}-{n}" if len([q for q in kinds if is_part(q)]) > 1 else ctor
                    lines.append(f"part-of P _ _ {apply('c.' + name, ns)} h = {got}")
                i += 1
    out.append("""
field-of : (P : ValueTree → Type 0) (f : FieldTree) (fs : FieldTrees) → Among f fs → EachField P fs → P (of_field f)
unfolding EachField
field-of P _ _ (first f fs) h = h.0
field-of P _ _ (later f g fs m) h = field-of P f fs m h.1

pub part-of : (P : ValueTree → Type 0) (w v : ValueTree) → IsChild w v → EachPart P v → P w
unfolding EachPart""")
    out += lines
    out.append("")
    for c in 'TISFP':
        out.append(f"""pub it-is-{WORD[c]} : (o : Option ValueTree) → {IS[c]} o ≡ true → o ≡ Some ({WRAP[c]} ({THE[c]} o))
unfolding {IS[c]} {THE[c]}
it-is-{WORD[c]} None h = absurd (true≢false (sym h))""")
        for d in 'TISFP':
            body = 'refl' if c == d else 'absurd (true≢false (sym h))'
            out.append(f"it-is-{WORD[c]} (Some ({WRAP[d]} v)) h = {body}")
        out.append('')
    out.append("""pub it-is-value : (o : Option ValueTree) → is_some o ≡ true → o ≡ Some (the_value o)
unfolding the_value
it-is-value None h = absurd (true≢false (sym h))
it-is-value (Some v) h = refl

-- a tree that stands in the list
abbrev pub Stands : List ValueTree → ValueTree → Type 0
Stands ts v = (n : ℕ) × (slice_get ts n ≡ Some v)

module _ (p : Pools) (ts : List ValueTree) where
  each-field : (ns : List ℕ) → are_fields ts ns ≡ true → EachField (Stands ts) (fields_at ts ns)
  unfolding EachField are_fields fields_at
  each-field [] h = tt
  each-field (n ∷ ns) h = ((n, it-is-field (slice_get ts n) (both-left (is_field (slice_get ts n)) (are_fields ts ns) h)), each-field ns (both-right (is_field (slice_get ts n)) (are_fields ts ns) h))

  pub each-part : (x : Shape) → fits p ts x ≡ true → EachPart (Stands ts) (shape_tree p ts x)
  unfolding EachPart shape_tree""")
    for code, ctor, variant, kinds in shapes():
        ns = names(kinds)
        proofs = []
        for k, n in zip(kinds, ns):
            c = core(k)
            if c == 'L':
                proofs.append(f"each-field (the_list (slice_get p.lists {n})) {part_proof(variant, ns, 'fields')}")
            elif is_part(k):
                proofs.append(f"({n}, it-is-{WORD[c]} (slice_get ts {n}) {part_proof(variant, ns, n)})")
        body = 'tt' if not proofs else proofs[0] if len(proofs) == 1 else f"({', '.join(proofs)})"
        out.append(f"  each-part {shape_of(variant, ns)} h = {body}")
    return with_steps('\n'.join(out) + '\n')


def sorts_file():
    """The sort of a shape is that of its tree; the last lemma is for the default arm of Shape::sort."""
    out = ["""-- The sort of a shape is that of its tree.
use Rattle.std.proofs.Common.{◌≡◌, refl, ap, ℕ, ℤ, List, Option, Some}
use Rattle.jh_boxed.specs.jh_name.declared.place.Sort.TheVariants as Sort
use Rattle.jh_form.specs.Tree.{ValueTree}
use Rattle.jh_form.specs.Sorts.{tree_sort}
use Rattle.jh_arena.specs.table.Entries.{Pools, the_value}
use Rattle.jh_arena.specs.table.Nodes.{shape_tree}
use Rattle.jh_arena.specs.declared.table.shapes.Shape.{Shape}
use Rattle.jh_arena.specs.declared.table.shapes.Shape.TheVariants as s
use Rattle.jh_arena.specs.table.Sorts.{shape_sort}

pub tree-seen : (o : Option ValueTree) (v : ValueTree) → o ≡ Some v → the_value o ≡ v
unfolding the_value
tree-seen o v e = ap the_value e

pub sort-same : (p : Pools) (ts : List ValueTree) (x : Shape) → shape_sort x ≡ tree_sort (shape_tree p ts x)
unfolding shape_sort shape_tree"""]
    premises, cases = [], []
    for code, ctor, variant, kinds in shapes():
        ns = names(kinds)
        out.append(f"sort-same p ts {shape_of(variant, ns)} = refl")
        if code != 'P':
            binders = ' '.join(f"({n} : {arg_type(k)})" for k, n in zip(kinds, ns))
            premises.append(f"({binders + ' → ' if binders else ''}y ≡ {shape_of(variant, ns).strip('()')} → ⊥)")
            cases.append((variant, ns))
    hyps = [f"h{n}" for n in range(len(cases))]
    out.append(f"\n-- what is no term and no field is a formula\npub formula-sort : (y : Shape) → {' → '.join(premises)} → Sort.Bool ≡ shape_sort y")
    out.append("unfolding shape_sort")
    for (variant, ns), h in zip(cases, hyps):
        out.append(f"formula-sort {shape_of(variant, ns)} {' '.join(hyps)} = absurd ({' '.join([h] + ns)} refl)")
    out.append(f"formula-sort _ {' '.join(hyps)} = refl")
    return '\n'.join(out) + '\n'


if __name__ == '__main__':
    import os
    import sys
    root = sys.argv[1]

    def write(path, text):
        path = f'{root}/crates/jh_arena/{path}'
        os.makedirs(os.path.dirname(path), exist_ok=True)
        open(path, 'w').write(text)
    which = sys.argv[2:]
    files = {
        'specs/table/Nodes.antt': nodes_file,
        'specs/table/Parts.antt': parts_spec,
        'src/table/shapes.rt': shapes_code,
        'specs/table/Codes.antt': codes_spec,
        'src/table/codes.rt': codes_code,
        'proofs/table/PartSteps.antt': part_steps_file,
        'proofs/table/NodeSteps.antt': node_steps_file,
        'proofs/table/Growing.antt': growing_file,
        'proofs/table/Below.antt': below_file,
        'proofs/table/Extents.antt': extents_file,
        'proofs/table/Places.antt': places_file,
        'proofs/table/ShapeEq.antt': shape_eq_file,
        'proofs/table/Children.antt': children_file,
        'proofs/table/ShapeSorts.antt': sorts_file,
    }
    for path, make in files.items():
        if not which or path in which:
            write(path, make())
