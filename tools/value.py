#!/usr/bin/env python3
"""Writes the recursion that takes boxed formulas out of a table, one function for each shape with parts, and its proof."""
import os
import sys
sys.path.insert(0, __file__.rsplit('/', 1)[0])
from forms import TYPES, core, is_part, boxed, apply, call
from table import IS, THE, names, shapes, direct, has_list

WORD = {'T': 'term', 'I': 'int', 'S': 'set', 'F': 'field', 'V': 'value', 'P': 'formula'}
ANTT = {'u': 'ℕ', 'z': 'ℤ'}
RUST = {'u': 'u32', 'z': 'i64'}
POOL = {'n': 'names', 'k': 'marks', 'L': 'lists'}
THE_POOL = {'n': 'the_name', 'k': 'the_mark', 'L': 'the_list'}
FIELD = {'n': 'name', 'k': 'mark', 'L': 'list', 'u': 'number', 'z': 'number'}


def snake(variant):
    return ''.join(('_' if c.isupper() and i else '') + c.lower() for i, c in enumerate(variant))


def rust_variant(code, ctor):
    return next(v for v, c, _ in TYPES[code][3] if c == ctor)


def rust_names(kinds):
    """Names of a shape's numbers in the code."""
    parts = iter('abcd')
    return [FIELD[core(k)] if core(k) == 'L' or not is_part(k) else next(parts) for k in kinds]


def needs_arm(kinds):
    return any(core(k) in 'nkL' or is_part(k) for k in kinds)


# ---------------------------------------------------------------- src/making.rt

HEAD = """ghost use Rattle.std.specs.Prelude.{◌≡◌, ◌<◌, true, IfOk, length, slice_get};
ghost use Rattle.jh_form.specs.Bare.{term_tree, int_tree, set_tree, field_tree, value_tree, formula_tree, list_tree};
ghost use Rattle.jh_arena.specs.declared.table.shapes.Shape.TheVariants as s;
ghost use Rattle.jh_arena.specs.table.Entries.{is_object, is_number, is_set, is_field, is_truth, the_object, the_number, the_set, the_field, the_truth, the_value, are_fields, fields_at};
ghost use Rattle.jh_arena.specs.table.Nodes.{nodes};
ghost use Rattle.jh_export.specs.Standing.{Stands, AreBelow};

use crate::standing::{list_of, mark_of, name_of, standing};
use jh_name::{NoMemory, Row, Sort};
use jh_arena::table::{Shape, Table};
use jh_form::{FieldTerm, Formula, IntTerm, SetTerm, Term, Value};
use jh_arena::jh_boxed::boxed;

// Each shape with parts has a function of its own, and formulas and values are answered in memory of
// their own, so that a level of a deep tree takes little of the stack.
"""


def meaning(code, of='made'):
    return f"IfOk result (λ made. {WORD[code]}_tree {of} ≡ {THE[code]} (slice_get (nodes table.now) node))"


def at_sort(code):
    return "node < length (nodes table.now)" if code == 'V' else f"{IS[code]} (slice_get (nodes table.now) node) ≡ true"


def in_box(code):
    """Formulas and values are made in memory of their own, so that a level takes little of the stack."""
    return code in 'PV'


def result(code):
    rust = TYPES[code][0]
    return f"Box<{rust}>" if in_box(code) else rust


def head(code, name, params, requires, public, ruleset, in_cycle=True):
    of = 'made.value' if in_box(code) else 'made'
    cycle = '#[cycle(made)]\n' if in_cycle else ''
    return f"""{cycle}#[inline(never)]
#[tactic(auto, using(crate::proofs::{ruleset}))]
{'pub ' if public else ''}fn {name}(table: &Table, node: usize{params}) -> Result<{result(code)}, NoMemory>
    requires {{ {requires} }}
    ensures {{ {meaning(code, of)} }}
{{
"""


def sort_name(code):
    return f"{WORD[code]}_box" if in_box(code) else f"make_{WORD[code]}"


def sort_function(code):
    rust = TYPES[code][0]
    arms = []
    for sort, ctor, variant, kinds in shapes():
        if sort != code:
            continue
        ns = rust_names(kinds)
        pattern = f"Shape::{variant}" + (f"({', '.join(ns)})" if ns else '')
        if needs_arm(kinds):
            arms.append(f"{pattern} => make_{snake(variant)}(table, node, {', '.join(ns)}),")
        elif in_box(code):
            arms.append(f"{pattern} => make_{snake(variant)}(table, node),")
        else:
            arms.append(f"{pattern} => Ok({rust}::{rust_variant(code, ctor)}" + (f"({', '.join(ns)})" if ns else '') + "),")
    arms.append("_ => unreachable!(),")
    return head(code, sort_name(code), '', at_sort(code), True, f"ValueSteps::{WORD[code]}_steps") + """    match standing(table, node) {
""" + ''.join(f"        {a}\n" for a in arms) + "    }\n}\n"


def part(k, n):
    return f"{WORD[core(k)]}_box(table, {n})?" if boxed(k) else f"make_{WORD[core(k)]}(table, {n})?"


def arm_function(code, ctor, variant, kinds):
    rust, made = TYPES[code][0], rust_variant(code, ctor)
    ns = rust_names(kinds)
    params = ''.join(f", {n}: {RUST.get(core(k), 'usize')}" for k, n in zip(kinds, ns))
    lines, args = [], []
    for k, n in zip(kinds, ns):
        c = core(k)
        if c == 'n':
            lines.append(f"let {n} = name_of(table, {n})?;")
        elif c == 'L':
            lines.append(f"let fields = make_fields(table, node, list_of(table, {n}))?;")
        elif is_part(k):
            lines.append(f"let {n} = {part(k, n)};")
    for k, n in zip(kinds, ns):
        if core(k) == 'k':
            lines.append(f"let {n} = mark_of(table, {n})?;")
        args.append('Row::of(fields)' if core(k) == 'L' else n)
    value = f"{rust}::{made}" + (f"({', '.join(args)})" if args else '')
    lines.append(f"boxed(table.alloc(), {value})" if in_box(code) else f"Ok({value})")
    in_cycle = any(is_part(k) for k in kinds)
    return head(code, f"make_{snake(variant)}", params, f"Stands table.now node {apply('s.' + variant, ns)}", False, f"ValueSteps::{snake(variant)}_steps", in_cycle) + ''.join(f"    {l}\n" for l in lines) + "}\n"


def value_functions():
    out = [head('V', 'value_box', '', at_sort('V'), True, 'Values::value_steps') + """    match table.sort(node) {
        Sort::Obj => object_value(table, node),
        Sort::Int => number_value(table, node),
        Sort::Bool => truth_value(table, node),
        Sort::Set => set_value(table, node),
        Sort::Field => field_value(table, node),
    }
}
"""]
    for code, variant in (('T', 'Obj'), ('I', 'Int'), ('P', 'Bool'), ('S', 'Set'), ('F', 'Field')):
        word = IS[code][3:]
        made = 'Box::into_inner(made)' if in_box(code) else 'made'
        out.append(head('V', f"{word}_value", '', at_sort(code), False, f"Values::{word}_value_steps") + f"""    let made = {sort_name(code)}(table, node)?;
    boxed(table.alloc(), Value::{variant}({made}))
}}
""")
    return out


def box_function(code):
    rust = TYPES[code][0]
    return f"""#[cycle(made)]
#[inline(never)]
fn {WORD[code]}_box(table: &Table, node: usize) -> Result<Box<{rust}>, NoMemory>
    requires {{ {at_sort(code)} }}
    ensures {{ {meaning(code, 'made.value')} }}
{{
    let made = make_{WORD[code]}(table, node)?;
    boxed(table.alloc(), made)
}}
"""


def code():
    out = [HEAD]
    for c in 'TISF':
        out.append(sort_function(c))
        out += [arm_function(*shape) for shape in shapes() if shape[0] == c and needs_arm(shape[3])]
    out += value_functions()
    out.append(sort_function('P'))
    out += [arm_function(*shape) for shape in shapes() if shape[0] == 'P']
    out.append("""#[cycle(made)]
#[inline(never)]
fn make_fields(table: &Table, node: usize, fields: &[usize]) -> Result<Vec<FieldTerm>, NoMemory>
    requires fields { are_fields (nodes table.now) fields.now ≡ true }
    requires below { AreBelow node fields.now }
    ensures { IfOk result (λ made. list_tree made.items ≡ fields_at (nodes table.now) fields.now) }
{
    let mut made = Vec::new(table.alloc());
    for field in fields {
        let field = make_field(table, *field)?;
        made.push(field)?;
    }
    Ok(made)
}
""")
    out += [box_function(c) for c in 'TISF']
    return '\n'.join(out)


# ---------------------------------------------------------------- proofs/ValueSteps.antt

def binder(k, n):
    return f"({n} : {ANTT.get(core(k), 'ℕ')})"


def tree_arg(k, n):
    c = core(k)
    if c in 'nk':
        return f"({THE_POOL[c]} (slice_get t.pools.{POOL[c]} {n}))"
    if c == 'L':
        return f"(fields_at (nodes t) (the_list (slice_get t.pools.lists {n})))"
    if is_part(k):
        return f"({THE[c]} (slice_get (nodes t) {n}))"
    return n


def shape_lemmas(code, ctor, variant, kinds):
    """The lemmas of a shape, and the names of those that its function cites."""
    ns = names(kinds)
    bs = ' '.join(binder(k, n) for k, n in zip(kinds, ns))
    given = f"{bs} → " if bs else ''
    shape = apply('s.' + variant, ns)
    args = ''.join(' ' + n for n in ns)
    out, used = [], []

    def lemma(name, claim, unfolding, proof):
        used.append(name)
        out.append(f"  pub {name} : {given}Stands t i {shape} → {claim}\n" + (f"  unfolding {unfolding}\n" if unfolding else '') + f"  {name}{args} h = {proof}\n")
    tree = call('tree.' + ctor, [tree_arg(k, n) for k, n in zip(kinds, ns)])
    lemma(f"stands-{variant}", f"{tree} ≡ {THE[code]} (slice_get (nodes t) i)", f"shape_tree {THE[code]}", f"ap {THE[code]} (sym h.tree)")
    place = 0
    for k, n in zip(kinds, ns):
        c = core(k)
        if c in 'nk':
            lemma(f"sort-{variant}-{n}", f"is_some (slice_get t.pools.{POOL[c]} {n}) ≡ true", '', f"part-{variant}-{n} t.pools (nodes t){args} h.fits")
        elif c == 'L':
            lemma(f"sort-{variant}-l", "is_some (slice_get t.pools.lists l) ≡ true", '', f"part-{variant}-l t.pools (nodes t){args} h.fits")
            lemma(f"fields-{variant}", "are_fields (nodes t) (the_list (slice_get t.pools.lists l)) ≡ true", '', f"part-{variant}-fields t.pools (nodes t){args} h.fits")
            own = ' ∷ '.join([m for _, m in direct(kinds, ns)] + ['[]'])
            lemma(f"below-{variant}-l", "AreBelow i (the_list (slice_get t.pools.lists l))", 'list_parts own_parts', f"fields-below i (the_list (slice_get t.pools.lists l)) ({own}) h.below.below")
        elif is_part(k):
            if c == 'V':
                lemma(f"sort-{variant}-{n}", f"{n} < length (nodes t)", '', f"inside (nodes t) {n} (part-{variant}-{n} t.pools (nodes t){args} h.fits)")
            else:
                lemma(f"sort-{variant}-{n}", f"{IS[c]} (slice_get (nodes t) {n}) ≡ true", '', f"part-{variant}-{n} t.pools (nodes t){args} h.fits")
            if has_list(kinds):
                own = ' ∷ '.join([m for _, m in direct(kinds, ns)] + ['[]'])
                proof = f"own-below i (the_list (slice_get t.pools.lists l)) ({own}) {place} {n} h.below.below refl"
            else:
                proof = f"h.below.below {place} {n} refl"
            lemma(f"below-{variant}-{n}", f"{n} < i", 'list_parts own_parts', proof)
            place += 1
    return out, used


def else_lemma(code):
    """That the shape of a node of this sort is one of the sort's own."""
    mine = [s for s in shapes() if s[0] == code]
    name = f"{WORD[code]}-else"
    hs = [f"h{j}" for j in range(len(mine))]
    premises = []
    for _, ctor, variant, kinds in mine:
        ns = names(kinds)
        bs = ' '.join(binder(k, n) for k, n in zip(kinds, ns))
        shape = 's.' + variant + ''.join(' ' + n for n in ns)
        premises.append(f"({bs} → y ≡ {shape} → ⊥)" if bs else f"(y ≡ {shape} → ⊥)")
    out = [f"""-- a node at this sort is of one of the sort's shapes
pub {name} : (t : Listing) (i : ℕ) (y : Shape) → Stands t i y → {IS[code]} (slice_get (nodes t) i) ≡ true → {' → '.join(premises)} → ⊥
unfolding shape_tree {IS[code]}"""]
    for sort, ctor, variant, kinds in shapes():
        ns = names(kinds)
        pattern = apply('s.' + variant, ns)
        if sort == code:
            j = next(j for j, s in enumerate(mine) if s[2] == variant)
            proof = call(hs[j], ns + ['refl'])
        else:
            proof = f"true≢false (sym is ∙ ap {IS[code]} h.tree)"
        out.append(f"{name} t i {pattern} h is {' '.join(hs)} = {proof}")
    return '\n'.join(out) + '\n'


def steps():
    lemmas, rules, parts, trees = [], [], [], []
    for code in 'TISFP':
        leaves = [f"{WORD[code]}-inside"]
        fn = TYPES[code][2]
        for shape in shapes():
            if shape[0] != code:
                continue
            _, ctor, variant, kinds = shape
            out, used = shape_lemmas(*shape)
            lemmas += out
            step = f"{fn}_tree-{rust_variant(code, ctor)}"
            trees.append(step)
            for k, n in zip(kinds, names(kinds)):
                if core(k) == 'L':
                    parts += [f"part-{variant}-l", f"part-{variant}-fields"]
                elif core(k) in 'nk' or is_part(k):
                    parts.append(f"part-{variant}-{n}")
            if needs_arm(kinds) or in_box(code):
                rules.append(f"pub ruleset {snake(variant)}_steps = ({', '.join([step] + used)})")
            else:
                leaves += [step] + used
        rules.append(f"pub ruleset {WORD[code]}_steps = ({', '.join(leaves)})")
    return f"""-- What the functions that make boxed terms and formulas cite of the shape of a node.
use Rattle.std.proofs.Common.{{◌≡◌, refl, sym, ap, ◌∙◌, ℕ, ◌<◌, ℤ, true, [], ◌∷◌, length, slice_get, is_some}}
use Rattle.std.proofs.lemmas.Bool.{{true≢false}}
use Rattle.jh_form.specs.Tree as tree
use Rattle.jh_form.proofs.Steps.{{{', '.join(trees)}}}
use Rattle.jh_arena.specs.table.Entries.{{Listing, the_name, the_mark, the_list, is_object, is_number, is_set, is_field, is_truth, the_object, the_number, the_set, the_field, the_truth, the_value, are_fields, fields_at}}
use Rattle.jh_arena.specs.declared.table.shapes.Shape.{{Shape}}
use Rattle.jh_arena.specs.declared.table.shapes.Shape.TheVariants as s
use Rattle.jh_arena.specs.table.Nodes.{{nodes, shape_tree}}
use Rattle.jh_arena.specs.table.Parts.{{list_parts, own_parts}}
use Rattle.jh_arena.proofs.table.Below.{{inside}}
use Rattle.jh_arena.proofs.table.PartSteps.{{{', '.join(sorted(set(parts)))}}}
use Rattle.jh_export.specs.Standing.{{Stands, AreBelow}}
use Rattle.jh_export.proofs.Places.{{fields-below, own-below, term-inside, int-inside, set-inside, field-inside, formula-inside}}

module _ (t : Listing) (i : ℕ) where
{chr(10).join(lemmas)}
""" + '\n'.join(else_lemma(c) for c in 'TISFP') + '\n' + '\n\n'.join(rules) + '\n'


# ---------------------------------------------------------------- proofs/making/+made

def invariants():
    """What each function of the recursion counts down: a node's shape comes after the node, and its parts before it."""
    counts = [(sort_name(c), 2) for c in 'TISFP'] + [('value_box', 4)]
    counts += [(f"{IS[c][3:]}_value", 3) for c in 'TISFP']
    counts += [(f"make_{snake(variant)}", 1) for _, _, variant, kinds in shapes() if any(is_part(k) for k in kinds)]
    counts += [('make_fields', 0)] + [(f"{WORD[c]}_box", 3) for c in 'TISF']
    return """use Rattle.std.proofs.Common.{◌≡◌, ◌+◌, ◌*◌, drop}
use Rattle.jh_arena.specs.table.Entries.{fields_at}
use Rattle.jh_arena.specs.table.Nodes.{nodes}
use Rattle.jh_arena.proofs.of_jh_boxed.Rows.{before}
use Rattle.jh_export.proofs.making.+made.Given as goal

-- a node's value, its formula or term, its shape and its list of fields are made in this order, and its
-- parts have smaller numbers
""" + '\n'.join(f"abbrev pub decreases-{f} : goal.decreases-{f}\ndecreases-{f} l = 6 * l.node" + (f" + {n}" if n else '') + '\n' for f, n in counts) + """
-- the fields made so far, with those that are left, are all
abbrev pub invariant-make_fields-loop-field : goal.invariant-make_fields-loop-field
invariant-make_fields-loop-field l = fields_at (nodes l.table) l.fields ≡ before l.made.items (fields_at (nodes l.table) (drop l.field-index l.fields))
"""


def answers():
    out = ["""use Rattle.std.proofs.Common.{◌≡◌, rules, arith, ◌<◌, true, slice_get, get_or}
use Rattle.jh_arena.specs.table.Entries.{is_field}
use Rattle.jh_arena.specs.table.Nodes.{nodes}
use Rattle.jh_export.proofs.ValueSteps.{term-else, int-else, set-else, field-else, formula-else}
use Rattle.jh_export.proofs.FieldLists.{item-is-field, item-below, fields-step, fields-end}
use Rattle.jh_export.proofs.making.+made.Goals as goal
"""]
    for code in 'TISFP':
        mine = [s for s in shapes() if s[0] == code]
        fn = sort_name(code)
        nots = ' '.join(f"c.in_default.not-{variant}" for _, _, variant, _ in mine)
        out.append(f"""pub {fn}-unreachable-requires : goal.{fn}-unreachable-requires
{fn}-unreachable-requires t c =
    {WORD[code]}-else c.args.table.now c.args.node c.standing.result c.standing.ensures c.requires
    {nots}
""")
    out.append("""pub make_fields-make_field-requires : goal.make_fields-make_field-requires
make_fields-make_field-requires t c =
    let part = get_or c.args.fields.now c.loop-field.field-index 0 in
    let smaller : part < c.args.node = item-below c.args.node c.args.fields.now c.loop-field.field-index c.requires.below c.loop-field-test.true in
    let field : is_field (slice_get (nodes c.args.table.now) part) ≡ true = item-is-field (nodes c.args.table.now) c.args.fields.now c.loop-field.field-index c.requires.fields c.loop-field-test.true in
    search (rules, arith)

pub make_fields-loop-field-preserved : goal.make_fields-loop-field-preserved
make_fields-loop-field-preserved t c =
    fields-step (nodes c.args.table.now) c.args.fields.now c.loop-field.field-index c.in_ok-field.field c.loop-field.made.items c.push.new.self.items
    c.loop-field-test.true c.loop-field.invariant c.in_ok-field.ensures c.in_ok-push.ensures.items

pub make_fields-returns : goal.make_fields-returns
make_fields-returns t c =
    fields-end (nodes c.args.table.now) c.args.fields.now c.loop-field.field-index c.loop-field.made.items c.loop-field-test.false c.loop-field.invariant
""")
    return '\n'.join(out)


if __name__ == '__main__':
    root = sys.argv[1]

    def write(path, text):
        path = f'{root}/crates/jh_export/{path}'
        os.makedirs(os.path.dirname(path), exist_ok=True)
        open(path, 'w').write(text)
    write('src/making.rt', code())
    write('proofs/ValueSteps.antt', steps())
    write('proofs/making/+made/Invariants.antt', invariants())
    write('proofs/making/+made/Answers.antt', answers())
