#!/usr/bin/env python3
"""Writes the recursions of jh_walk that ask something of the formula types, one arm for each variant, and the answers of these and of the mapping.

The mapping itself, which builds formulas, is kept by hand."""
import sys
sys.path.insert(0, __file__.rsplit('/', 1)[0])
from forms import TYPES, ORDER, boxed, core, is_part, names

PARAM = {'T': 'term', 'I': 'term', 'S': 'term', 'F': 'field', 'V': 'value', 'P': 'formula'}


def extent_arm(code, variant, ctor, kinds):
    rust = TYPES[code][0]
    ns = ['fields' if core(k) == 'L' else n if is_part(k) else '_' for k, n in zip(kinds, names(kinds))]
    pat = f"{rust}::{variant}" + (f"({', '.join(ns)})" if ns else '')
    calls = [f"extent_{'fields' if core(k) == 'L' else TYPES[core(k)][2]}({n + '.items()' if core(k) == 'L' else n})" for k, n in zip(kinds, ns) if is_part(k)]
    if not calls:
        return f"        {pat} => LEAF,\n"
    inner = calls[-1]
    if code == 'V':
        return f"        {pat} => {inner},\n"
    inner = calls[0]
    for c in calls[1:]:
        inner = f"beside({inner}, {c})"
    return f"        {pat} => over({inner}),\n"


def extent():
    out = ["""#![tactic(auto, using(jh_form::proofs::Steps::tree_steps, crate::proofs::SizeSteps::size_steps))]

ghost use Rattle.std.specs.Prelude.{◌≡◌, ◌-◌, ◌^◌, min};
ghost use Rattle.jh_form.specs.Bare.{term_tree, int_tree, set_tree, field_tree, value_tree, formula_tree, list_tree};
ghost use Rattle.jh_boxed.specs.Sizes.{term_size, int_size, set_size, field_size, value_size, formula_size, fields_size, term_depth, int_depth, set_depth, field_depth, value_depth, formula_depth, fields_depth};

use crate::counting::{Extent, LEAF, NOTHING, beside, over};
use jh_form::{FieldTerm, Formula, IntTerm, SetTerm, Term, Value};
"""]
    for code in ORDER:
        rust, tree, fn, variants = TYPES[code]
        p = PARAM[code]
        out.append(f"""
#[cycle(extent)]
pub fn extent_{fn}({p}: &{rust}) -> Extent
    ensures nodes {{ result.nodes ≡ min ({fn}_size ({fn}_tree {p}.now)) (2 ^ 64 - 1) }}
    ensures depth {{ result.depth ≡ min ({fn}_depth ({fn}_tree {p}.now)) (2 ^ 64 - 1) }}
{{
    match {p} {{
""" + ''.join(extent_arm(code, v, ctor, kinds) for v, ctor, kinds in variants) + "    }\n}\n")
    out.append("""
#[cycle(extent)]
pub fn extent_fields(fields: &[FieldTerm]) -> Extent
    ensures nodes { result.nodes ≡ min (fields_size (list_tree fields.now)) (2 ^ 64 - 1) }
    ensures depth { result.depth ≡ min (fields_depth (list_tree fields.now)) (2 ^ 64 - 1) }
{
    let mut all = NOTHING;
    for field in fields {
        all = beside(all, extent_field(field));
    }
    all
}
""")
    return ''.join(out)



def numbered(seen, called, arm):
    """The name of a call's step: bare where it is the first of its function, else with its arm, and counted from the second of an arm on."""
    if called not in seen:
        seen[called] = True
        return called
    place = f'{called}-in-{arm}'
    seen[place] = seen.get(place, 0) + 1
    return place if seen[place] == 1 else f'{place}-{seen[place]}'


def known_of(step, clause, size):
    """What a call says of an extent: of a part in a box, what is in the box."""
    part, behind, called = step
    said = f'c.{called}.ensures.{clause}'
    if not behind:
        return said
    fn = TYPES[core(part)][2]
    return f'({said} ∙ ap (λ x. min ({fn}_{size} ({fn}_tree x)) most) c.{behind}.ensures)'


def extent_answers():
    """An answer for each arm, but for those with a row of fields: those are left to the check."""
    out = ["""use Rattle.std.proofs.Common.{◌≡◌, ℕ, ◌+◌, ap, sym, ◌∙◌, min, max, arith}
use Rattle.jh_form.specs.Bare.{term_tree, int_tree, set_tree, field_tree, value_tree, formula_tree}
use Rattle.jh_boxed.specs.Sizes.{term_size, int_size, set_size, field_size, value_size, formula_size, term_depth, int_depth, set_depth, field_depth, value_depth, formula_depth}
use Rattle.jh_boxed.proofs.Extents.{most, leaf, sum_one, sum_two, sum_three, deep_one, deep_two, deep_three, sum_step, deep_step, sum_end, deep_end}
use Rattle.jh_boxed.proofs.Rows.{rest_size, rest_depth, end_size, end_depth}
use Rattle.jh_boxed.proofs.extent.+extent.Goals as goal

pub extent_fields-loop-field-preserved : goal.extent_fields-loop-field-preserved
extent_fields-loop-field-preserved t c = record {
  nodes_fit = omega arith;
  depth_fits = omega arith;
  nodes = sum_step _ _ _ _ _ _ _ _ c.loop-field.invariant.nodes (rest_size _ _ _ c.loop-field-test.true c.field-item.is) c.extent_field.ensures.nodes c.beside-all.ensures.nodes;
  depth = deep_step _ _ _ _ _ _ _ _ c.loop-field.invariant.depth (rest_depth _ _ _ c.loop-field-test.true c.field-item.is) c.extent_field.ensures.depth c.beside-all.ensures.depth;
}

pub extent_fields-returns-clause-nodes : goal.extent_fields-returns-clause-nodes
extent_fields-returns-clause-nodes t c =
    sum_end _ _ _ _ c.loop-field.invariant.nodes_fit c.loop-field.invariant.nodes (end_size _ _ c.loop-field-test.false)

pub extent_fields-returns-clause-depth : goal.extent_fields-returns-clause-depth
extent_fields-returns-clause-depth t c =
    deep_end _ _ _ _ c.loop-field.invariant.depth_fits c.loop-field.invariant.depth (end_depth _ _ c.loop-field-test.false)
"""]
    for code in ORDER:
        rust, tree, fn, variants = TYPES[code]
        p = PARAM[code]
        seen = {}
        for variant, ctor, kinds in variants:
            parts = [kind for kind in kinds if is_part(kind)]
            if 'L' in parts:
                continue
            steps = []
            for place, part in enumerate(parts):
                behind = numbered(seen, 'deref', variant) if boxed(part) else None
                called = numbered(seen, f'extent_{TYPES[core(part)][2]}', variant)
                steps.append((part, behind, called))
                if place:
                    steps.append((None, None, numbered(seen, 'beside', variant)))
            if parts and code != 'V':
                steps.append((None, None, numbered(seen, 'over', variant)))
            for clause, size, word in (('nodes', 'size', 'sum'), ('depth', 'depth', 'deep')):
                goal = f'extent_{fn}-returns-in-{variant}-clause-{clause}'
                whole = f'(ap (λ x. {fn}_{size} ({fn}_tree x)) c.in-{variant}.is)'
                known = ' '.join(known_of(step, clause, size) for step in reversed(steps))
                if not parts:
                    body = f'leaf _ {whole}'
                elif code == 'V':
                    body = f'{known} ∙ ap (λ n. min n most) (sym {whole})'
                else:
                    body = f'{word}_{("one", "two", "three")[len(parts) - 1]} {"_ " * (1 + 3 * len(parts))}{known} {whole}'
                out.append(f"""
pub {goal} : goal.{goal}
unfolding {fn}_tree {fn}_{size}
{goal} t c = {body}
""")
    return ''.join(out)


SORT = {'free_object': 'Obj', 'free_number': 'Int', 'free_set': 'Set', 'free_field': 'Field', 'free_truth': 'Bool'}


def names_arm(code, variant, ctor, kinds):
    rust = TYPES[code][0]
    if ctor in SORT:
        return f"        {rust}::{variant}(name) => test.passes(name, Sort::{SORT[ctor]}),\n"
    ns = ['fields' if core(k) == 'L' else n if is_part(k) else '_' for k, n in zip(kinds, names(kinds))]
    pat = f"{rust}::{variant}" + (f"({', '.join(ns)})" if ns else '')
    calls = [f"names_{'fields' if core(k) == 'L' else TYPES[core(k)][2]}({n + '.items()' if core(k) == 'L' else n}, test)" for k, n in zip(kinds, ns) if is_part(k)]
    return f"        {pat} => {' && '.join(calls) if calls else 'true'},\n"


def naming():
    out = ["""#![tactic(auto, using(jh_form::proofs::Steps::tree_steps, jh_form::proofs::PassSteps::pass_steps))]

ghost use Rattle.std.specs.Prelude.{◌≡◌};
ghost use Rattle.jh_form.specs.Bare.{term_tree, int_tree, set_tree, field_tree, value_tree, formula_tree, list_tree};
ghost use Rattle.jh_form.specs.Passing.{term_passes, int_passes, set_passes, field_passes, value_passes, formula_passes, fields_passes};

use crate::walk::NameTest;
use jh_name::Sort;
use jh_form::{FieldTerm, Formula, IntTerm, SetTerm, Term, Value};
"""]
    for code in ORDER:
        rust, tree, fn, variants = TYPES[code]
        p = PARAM[code]
        out.append(f"""
#[cycle(names)]
pub fn names_{fn}<T: NameTest>({p}: &{rust}, test: &T) -> bool
    ensures {{ result ≡ {fn}_passes ({fn}_tree {p}.now) (T.test test.now) }}
{{
    match {p} {{
""" + ''.join(names_arm(code, v, ctor, kinds) for v, ctor, kinds in variants) + "    }\n}\n")
    out.append("""
#[cycle(names)]
pub fn names_fields<T: NameTest>(fields: &[FieldTerm], test: &T) -> bool
    ensures { result ≡ fields_passes (list_tree fields.now) (T.test test.now) }
{
    for field in fields {
        if !names_field(field, test) {
            return false;
        }
    }
    true
}
""")
    return ''.join(out)


def passing_of(part, behind, called):
    """What a call says of a part: in a box, of what is in the box."""
    said = f'c.{called}.ensures'
    if not behind:
        return said
    fn = TYPES[core(part)][2]
    return f'({said} ∙ ap (λ x. {fn}_passes ({fn}_tree x) (g.T.NameTest.test c.args.test.now)) c.{behind}.ensures)'


def naming_answers():
    """An answer for each arm of up to two parts, but for those with a row of fields: the others are left to the check."""
    out = ["""use Rattle.std.proofs.Common.{sym, ap, ◌∙◌, rules}
use Rattle.jh_form.specs.Bare.{term_tree, int_tree, set_tree, field_tree, value_tree, formula_tree}
use Rattle.jh_form.specs.Passing.{term_passes, int_passes, set_passes, field_passes, value_passes, formula_passes}
use Rattle.jh_boxed.proofs.Rows.{pass_step, pass_end}
use Rattle.jh_boxed.proofs.Tests.{stop, go_on, both, fails}
use Rattle.jh_boxed.proofs.passing.+names.Goals as goal

pub names_fields-returns-then-not-names_field : goal.names_fields-returns-then-not-names_field
names_fields-returns-then-not-names_field g t c =
    stop _ _ _ _ _ c.loop-field.invariant (pass_step _ _ _ _ c.loop-field-test.true c.field-item.is) c.names_field.ensures (search rules)

pub names_fields-loop-field-preserved : goal.names_fields-loop-field-preserved
names_fields-loop-field-preserved g t c =
    go_on _ _ _ _ _ c.loop-field.invariant (pass_step _ _ _ _ c.loop-field-test.true c.field-item.is) c.names_field.ensures (search rules)

pub names_fields-returns : goal.names_fields-returns
names_fields-returns g t c = sym (c.loop-field.invariant ∙ pass_end _ _ _ c.loop-field-test.false)
"""]
    for code in ORDER:
        rust, tree, fn, variants = TYPES[code]
        seen, tests = {}, {}

        def answer(goal, whole, body):
            goal = f'names_{fn}-returns-{goal}'
            out.append(f"""
pub {goal} : goal.{goal}
unfolding {fn}_tree {fn}_passes
{goal} g t c =
    let whole = ap (λ x. {fn}_passes ({fn}_tree x) (g.T.NameTest.test c.args.test.now)) c.in-{whole}.is in
    {body}
""")

        for variant, ctor, kinds in variants:
            parts = [kind for kind in kinds if is_part(kind)]
            if ctor in SORT:
                answer(f'in-{variant}', variant, f'c.{numbered(seen, "passes", variant)}.ensures ∙ sym whole')
                continue
            if not parts:
                answer(f'in-{variant}', variant, 'sym whole')
                continue
            behind = numbered(seen, 'deref', variant) if boxed(parts[0]) else None
            called = f'names_{"fields" if parts[0] == "L" else TYPES[core(parts[0])][2]}'
            first = numbered(seen, called, variant)
            if parts == ['L']:
                continue
            if len(parts) == 1:
                answer(f'in-{variant}', variant, f'{passing_of(parts[0], behind, first)} ∙ sym whole')
                continue
            if len(parts) > 2:
                for part in parts[1:]:
                    seen[f'names_{TYPES[core(part)][2]}'] = True
                continue
            tests[called] = tests.get(called, 0) + 1
            branch = called if tests[called] == 1 else f'{called}-{tests[called]}'
            inner = f'deref-then-{branch}' if boxed(parts[1]) else None
            second = f'names_{TYPES[core(parts[1])][2]}'
            if second in seen:
                second = f'{second}-then-{branch}'
            seen[second] = True
            known = passing_of(parts[0], behind, first)
            answer(f'then-{branch}', variant, f'both _ _ _ _ _ c.if-{branch}.true {known} {passing_of(parts[1], inner, second)} whole')
            answer(f'else-{branch}', variant, f'fails _ _ _ _ c.if-{branch}.false {known} whole')
    return ''.join(out)


def mapped_of(fn, value, depth='c.args.depth'):
    return f'mapped_{fn} ({fn}_tree {value}) leaves {depth}'


# the functions with an arm for each of some formulas; what maps one alone has no goal that is worth an answer
MAPPED_IN = {
    'And': 'connective', 'Or': 'connective', 'Implies': 'connective', 'Iff': 'connective', 'All': 'binder', 'Ex': 'binder',
    'EqInt': 'numbers', 'Less': 'numbers', 'LessEq': 'numbers', 'EqSet': 'sets', 'Subset': 'sets',
}


def mapping_answers():
    """An answer for each arm in which a tree is made, but for a constant times a term, whose number is read and written: that is left to the check."""
    out = ["""use Rattle.std.proofs.Common.{ap, sym, ◌∙◌}
use Rattle.jh_form.specs.Bare.{term_tree, int_tree, set_tree, field_tree, value_tree, formula_tree}
use Rattle.jh_form.specs.Tree as tree
use Rattle.jh_boxed.specs.Mapped.{mapped_term, mapped_int, mapped_set, mapped_field, mapped_value, mapped_formula}
use Rattle.jh_boxed.proofs.Rows.{map_step, map_end}
use Rattle.jh_boxed.proofs.mapping.+map.Goals as goal

pub map_fields-loop-field-preserved : goal.map_fields-loop-field-preserved
map_fields-loop-field-preserved g t c =
    map_step c.args.fields.now (g.L.Leaves.leaves c.args.leaves.now) c.args.depth c.loop-field.field-index c.field-item.result c.in_ok-mapped.mapped c.loop-field.made.items c.push.new.self.items
    c.loop-field-test.true c.field-item.is c.loop-field.invariant c.in_ok-mapped.ensures c.in_ok-push.ensures.items

pub map_fields-returns : goal.map_fields-returns
map_fields-returns g t c =
    map_end c.args.fields.now (g.L.Leaves.leaves c.args.leaves.now) c.args.depth c.loop-field.field-index c.loop-field.made.items
    c.loop-field-test.false c.loop-field.invariant
"""]
    seen_in = {}
    for code in ORDER:
        rust, tree, fn, variants = TYPES[code]
        for variant, ctor, kinds in variants:
            parts = [(name, kind) for name, kind in zip(names(kinds), kinds) if is_part(kind)]
            if not parts or code == 'P' and variant not in MAPPED_IN:
                continue
            called = dict(zip('abc', ('first', 'second', 'third')))
            function = f'map_{MAPPED_IN[variant] if code == "P" else fn}'
            seen = seen_in.setdefault(function, {})
            arm = f'-in-{variant}'
            made = []
            for name, kind in parts:
                part = TYPES[core(kind)][2]
                behind = numbered(seen, 'deref', variant) if boxed(kind) else None
                bound = 'made' if code == 'V' else name
                said = f'c.in_ok-{bound}{arm}.ensures'
                depth = 'c.args.depth'
                if kind.endswith('+'):
                    depth = f'c.in_ok-below{arm}.below'
                if behind:
                    said += f' ∙ ap (λ x. {mapped_of(part, "x", depth)}) c.{behind}.ensures'
                if kind.endswith('+'):
                    said += f' ∙ ap (λ d. {mapped_of(part, f"c.in-{variant}.{name}.value", "d")}) c.in_ok-below{arm}.ensures'
                made.append((called[name], said))
            last = 'made' if code == 'V' else parts[-1][0]
            goal = f'{function}-returns-in_ok-{last}{arm}'
            if variant == 'Scale':
                continue
            shown = [f'({name} i)' for name, _ in made]
            out.append(f"""
pub {goal} : goal.{goal}
unfolding {fn}_tree mapped_{fn}
{goal} g t c =
    let leaves = g.L.Leaves.leaves c.args.leaves.now in
""" + ''.join(f"    let {name} = {said} in\n" for name, said in made) + f"""    (λ i. tree.{ctor} {' '.join(shown)}) ∙ ap (λ x. {mapped_of(fn, 'x')}) (sym c.in-{variant}.is)
""")
    return ''.join(out)


if __name__ == '__main__':
    root = sys.argv[1]
    open(f'{root}/crates/jh_boxed/src/extent.rt', 'w').write(extent())
    open(f'{root}/crates/jh_boxed/src/passing.rt', 'w').write(naming())
    open(f'{root}/crates/jh_boxed/proofs/extent/+extent/Answers.antt', 'w').write(extent_answers())
    open(f'{root}/crates/jh_boxed/proofs/passing/+names/Answers.antt', 'w').write(naming_answers())
    open(f'{root}/crates/jh_boxed/proofs/mapping/+map/Answers.antt', 'w').write(mapping_answers())
