#!/usr/bin/env python3
"""Writes the recursion that enters formulas into a table, one arm for each variant, and the steps of its proof."""
import os
import sys
sys.path.insert(0, __file__.rsplit('/', 1)[0])
from forms import TYPES, ORDER, any_formula, core, is_part, boxed
from table import WRAP, camel, names as shape_names

PARAM = {'T': 'term', 'I': 'term', 'S': 'term', 'F': 'field', 'V': 'value', 'P': 'formula'}
STEPS = {'T': 'object_steps', 'I': 'number_steps', 'S': 'set_steps', 'F': 'field_steps', 'V': 'value_steps', 'P': 'truth_steps'}
WORD = {'T': 'term', 'I': 'int', 'S': 'set', 'F': 'field', 'V': 'value', 'P': 'formula'}

# the formulas that a function of their own enters, so that a level of the others takes less of the stack
CONNECTIVES = ('True', 'False', 'Not', 'And', 'Or', 'Implies', 'Iff', 'All', 'Ex', 'Mark')


OR = '\n        | '


def is_atom(code, variant):
    return code == 'P' and variant not in CONNECTIVES


def any_of(variant, kinds):
    """The pattern in the code of a formula of this variant."""
    return f"Formula::{variant}" + (f"({', '.join('_' for _ in kinds)})" if kinds else '')


def atoms_file():
    """Which formulas are atoms."""
    out = ["""-- Which formulas are atoms: no constants, connectives, quantifiers or labels.
use Rattle.std.specs.Prelude.{Bool, true, false}
use Rattle.jh_form.specs.declared.form.Formula.{Formula}
use Rattle.jh_form.specs.declared.form.Formula.TheVariants as formula

abbrev pub is_atom : Formula → Bool"""]
    out += [f"is_atom {any_formula(v, kinds)} = false" for v, _, kinds in TYPES['P'][3] if v in CONNECTIVES]
    return '\n'.join(out) + '\nis_atom _ = true\n'


def arm(code, variant, ctor, kinds):
    rust = TYPES[code][0]
    word = {'u': 'number', 'n': 'name', 'z': 'number', 'k': 'mark', 'L': 'fields'}
    parts = iter('abcd')
    ns = [word[core(k)] if core(k) == 'L' or not is_part(k) else next(parts) for k in kinds]
    pattern = f"{rust}::{variant}" + (f"({', '.join(ns)})" if ns else '')
    if code == 'V':
        return f"        {pattern} => enter_{WORD[core(kinds[0])]}(table, a),\n"
    lines, args = [], []
    for k, n in zip(kinds, ns):
        if is_part(k) and core(k) != 'L':
            lines.append(f"let {n} = enter_{WORD[core(k)]}(table, {n})?;")
    for k, n in zip(kinds, ns):
        if core(k) == 'n':
            lines.append("let name = table.name(name)?;")
        elif core(k) == 'k':
            lines.append("let mark = table.mark(mark)?;")
        elif core(k) == 'L':
            lines.append("let fields = enter_fields(table, fields.items())?;")
    for k, n in zip(kinds, ns):
        args.append(f"*{n}" if core(k) in 'uz' else n)
    made = f"table.make(Shape::{camel(ctor)}" + (f"({', '.join(args)})" if args else '') + ")"
    if not lines:
        return f"        {pattern} => {made},\n"
    return f"        {pattern} => {{\n" + ''.join(f"            {l}\n" for l in lines) + f"            {made}\n        }}\n"


def code():
    out = ["""ghost use Rattle.std.specs.Prelude.{◌≡◌, true, IfOk, Some, slice_get};
ghost use Rattle.jh_form.specs.Tree.{of_object, of_number, of_truth, of_set, of_field};
ghost use Rattle.jh_form.specs.Bare.{term_tree, int_tree, set_tree, field_tree, value_tree, formula_tree, list_tree};
ghost use Rattle.jh_arena.specs.table.Growth.{Extends};
ghost use Rattle.jh_arena.specs.table.Nodes.{nodes};
ghost use Rattle.jh_import.specs.entering.Atoms.{is_atom};
ghost use Rattle.jh_import.specs.entering.Entered.{IsList, AddsParts, AddsFields};

use jh_name::NoMemory;
use jh_arena::table::{Shape, Table};
use jh_form::{FieldTerm, Formula, IntTerm, SetTerm, Term, Value};
"""]
    doc = {'T': 'a term for an object', 'I': 'a term for a number', 'S': 'a term for a set', 'F': 'a field', 'V': 'a value of any sort', 'P': 'a formula'}
    for c in 'TISFPV':
        rust, tree, fn, variants = TYPES[c]
        p = PARAM[c]
        wanted = f"value_tree {p}.now" if c == 'V' else f"{WRAP[c]} ({fn}_tree {p}.now)"
        wanted = f"({wanted})"
        out.append(f"""/// The node of {doc[c]}. Nodes that are new are made, each a part of it; those before stay.
#[cycle(entered)]
#[tactic(auto, using(crate::proofs::entering::EnterSteps::{STEPS[c]}))]
pub fn enter_{WORD[c]}(table: &mut Table, {p}: &{rust}) -> Result<usize, NoMemory>
    ensures node {{ IfOk result (λ node. slice_get (nodes table.new) node ≡ Some {wanted}) }}
    ensures grows {{ Extends table.old table.new }}
    ensures only {{ AddsParts table.old table.new {wanted} }}
{{
    match {p} {{
""" + ''.join(arm(c, v, ctor, kinds) for v, ctor, kinds in variants if not is_atom(c, v)) + (f"        {OR.join(any_of(v, kinds) for v, _, kinds in variants if is_atom(c, v))} => enter_atom(table, formula),\n" if c == 'P' else '') + "    }\n}\n")
    atoms = [(v, ctor, kinds) for v, ctor, kinds in TYPES['P'][3] if is_atom('P', v)]
    out.append("""/// The node of a formula that is an atom.
#[cycle(entered)]
#[inline(never)]
#[tactic(auto, using(crate::proofs::entering::EnterSteps::truth_steps))]
fn enter_atom(table: &mut Table, formula: &Formula) -> Result<usize, NoMemory>
    requires { is_atom formula.now ≡ true }
    ensures node { IfOk result (λ node. slice_get (nodes table.new) node ≡ Some (of_truth (formula_tree formula.now))) }
    ensures grows { Extends table.old table.new }
    ensures only { AddsParts table.old table.new (of_truth (formula_tree formula.now)) }
{
    match formula {
""" + ''.join(arm('P', *atom) for atom in atoms) + ''.join(f"        {any_of(v, kinds)} => unreachable!(),\n" for v, _, kinds in TYPES['P'][3] if v in CONNECTIVES) + "    }\n}\n")
    out.append("""#[cycle(entered)]
#[tactic(auto, using(crate::proofs::entering::EnterSteps::list_steps))]
fn enter_fields(table: &mut Table, fields: &[FieldTerm]) -> Result<usize, NoMemory>
    ensures list { IfOk result (λ number. IsList table.new number (list_tree fields.now)) }
    ensures grows { Extends table.old table.new }
    ensures only { AddsFields table.old table.new (list_tree fields.now) }
{
    let mut made = Vec::new(table.alloc());
    for field in fields {
        let node = enter_field(table, field)?;
        made.push(node)?;
    }
    table.list(made.as_slice())
}
""")
    return '\n'.join(out)


def guards():
    """The calls for others, which ask first how deep the tree nests."""
    out = ["""// Written by tools/enter.py.
ghost use Rattle.std.specs.Prelude.{◌≡◌, ◌≤◌, IfOk, Some, slice_get};
ghost use Rattle.jh_form.specs.Tree.{of_object, of_number, of_truth, of_set, of_field};
ghost use Rattle.jh_form.specs.Bare.{term_tree, int_tree, set_tree, field_tree, value_tree, formula_tree};
ghost use Rattle.jh_arena.specs.jh_boxed.Sizes.{value_depth};
ghost use Rattle.jh_arena.specs.table.Growth.{Extends};
ghost use Rattle.jh_arena.specs.table.Nodes.{nodes};
ghost use Rattle.jh_import.specs.entering.Entered.{AddsParts, IsKept};

use crate::entering::entering;
use jh_name::NoMemory;
use jh_arena::table::{MOST_LEVELS, Table};
use jh_form::{FieldTerm, Formula, IntTerm, SetTerm, Term, Value};
use jh_arena::jh_boxed::Walk;
"""]
    doc = {'T': 'a term for an object', 'I': 'a term for a number', 'S': 'a term for a set', 'F': 'a field', 'V': 'a value of any sort', 'P': 'a formula'}
    for c in 'TISFPV':
        rust, tree, fn, variants = TYPES[c]
        p = PARAM[c]
        wanted = f"(value_tree {p}.now)" if c == 'V' else f"({WRAP[c]} ({fn}_tree {p}.now))"
        out.append(f"""/// The node of {doc[c]}. Nodes that are new are made, each a part of it; those before stay. Where the tree is
/// listed already, no node is made. The answer is want of memory where the tree nests deeper than MOST_LEVELS, and
/// nothing is entered then.
""" + ("#[tactic(auto, using(crate::proofs::entering::EnterSteps::value_steps))]\n" if c == 'V' else '') + f"""pub fn enter{'' if c == 'V' else '_' + WORD[c]}(table: &mut Table, {p}: &{rust}) -> Result<usize, NoMemory>
    ensures node {{ IfOk result (λ node. slice_get (nodes table.new) node ≡ Some {wanted}) }}
    ensures shallow {{ IfOk result (λ node. value_depth {wanted} ≤ 10001) }}
    ensures grows {{ Extends table.old table.new }}
    ensures only {{ AddsParts table.old table.new {wanted} }}
    ensures kept {{ IsKept table.old table.new {wanted} }}
{{
""" + (f"""    match value {{
""" + ''.join(f"        Value::{v}(a) => enter_{WORD[core(kinds[0])]}(table, a),\n" for v, ctor, kinds in variants) + "    }\n" if c == 'V' else f"""    if {p}.depth() > MOST_LEVELS {{
        return Err(NoMemory);
    }}
    table.parts_come_first();
    let node = entering::enter_{WORD[c]}(table, {p});
    table.nodes_differ();
    node
""") + "}\n")
    return '\n'.join(out)


def steps():
    uses, rules = [], []
    shape_rules = []
    for c in 'TISFPV':
        rust, tree, fn, variants = TYPES[c]
        mine = []
        for v, ctor, kinds in variants:
            mine.append(f"{fn}_tree-{v}")
            if c != 'V' and not any(core(k) == 'L' for k in kinds):
                mine += [f"fits-{camel(ctor)}", f"tree-{camel(ctor)}"]
                shape_rules += [f"fits-{camel(ctor)}", f"tree-{camel(ctor)}"]
        if c == 'P':
            mine += ['fits-listed-Reach', 'tree-listed-Reach', 'fits-listed-Tree', 'tree-listed-Tree']
        uses += [m for m in mine if '_tree-' in m]
        rules.append(f"pub ruleset {STEPS[c]} = ({', '.join(mine + ['node-stays', 'extends-trans'])})")
    return f"""-- What the arms of entering cite, for each sort.
use Rattle.jh_form.proofs.Steps.{{{', '.join(uses)}}}
use Rattle.jh_arena.proofs.table.NodeSteps.{{{', '.join(shape_rules)}}}
use Rattle.jh_arena.proofs.table.Listed.{{node-stays, extends-trans}}
use Rattle.jh_import.proofs.entering.Fields.{{fits-listed-Reach, tree-listed-Reach, fits-listed-Tree, tree-listed-Tree}}

""" + '\n\n'.join(rules) + "\n\npub ruleset list_steps = (node-stays, extends-trans)\n"


# the answers that no arm shares
ANSWERS = """use Rattle.std.proofs.Common.{◌≡◌, rules, refl, ap, sym, ◌∙◌, Some, slice_get, SFits, to_z, of_z, w64}
use Rattle.std.proofs.lemmas.Int.{to_z-of_z}
use Rattle.jh_form.specs.Tree.{FieldTree, ValueTree, of_object, of_number, of_truth, of_set, of_field}
use Rattle.jh_form.specs.Tree as tree
use Rattle.jh_form.specs.Bare.{term_tree, int_tree, set_tree, field_tree, value_tree, formula_tree, list_tree}
use Rattle.jh_form.proofs.Steps.{STEPS}
use Rattle.jh_arena.specs.jh_boxed.Parts as part
use Rattle.jh_arena.specs.declared.table.shapes.Shape.TheVariants as s
use Rattle.jh_arena.specs.table.Nodes.{nodes, tree_in}
use Rattle.jh_arena.proofs.table.Listed.{extends-refl, extends-trans, node-stays}
use Rattle.jh_arena.proofs.table.NodeSteps.{SHAPES}
use Rattle.jh_import.proofs.entering.Fields.{entering-start, entering-step, listed-as, made-as, fits-listed-Reach, tree-listed-Reach, fits-listed-Tree, tree-listed-Tree}
use Rattle.jh_import.proofs.entering.Adding.{adds-self, adds-part, adds-fields, adds-pool, adds-made, adds-first, adds-field, adds-list}
use Rattle.jh_import.proofs.entering.entering.+entered.Goals as goal

pub enter_fields-loop-field-init : goal.enter_fields-loop-field-init
enter_fields-loop-field-init t c = record {
  grows = extends-refl c.args.table.now;
  entering = entering-start c.args.table.now c.new-made.result.items (list_tree c.args.fields.now) c.new-made.ensures.items;
  only = adds-first c.args.table.now (list_tree c.args.fields.now);
}

pub enter_fields-returns-in_err-node-clause-only :
    goal.enter_fields-returns-in_err-node-clause-only
enter_fields-returns-in_err-node-clause-only t c =
    adds-field c.args.table.now c.loop-field.table c.enter_field.new.table c.args.fields.now c.loop-field.field-index c.field-item.result c.loop-field.invariant.only c.in_err-node.ensures.only
    c.loop-field-test.true c.field-item.is

pub enter_fields-returns-in_err-push-clause-only :
    goal.enter_fields-returns-in_err-push-clause-only
enter_fields-returns-in_err-push-clause-only t c =
    adds-field c.args.table.now c.loop-field.table c.enter_field.new.table c.args.fields.now c.loop-field.field-index c.field-item.result c.loop-field.invariant.only c.in_ok-node.ensures.only
    c.loop-field-test.true c.field-item.is

pub enter_fields-returns-clause-only : goal.enter_fields-returns-clause-only
enter_fields-returns-clause-only t c = adds-list c.args.table.now c.loop-field.table c.list.new.self (list_tree c.args.fields.now) c.list.ensures.nodes c.loop-field.invariant.only

pub enter_fields-returns-in_err-node-clause-grows :
    goal.enter_fields-returns-in_err-node-clause-grows
enter_fields-returns-in_err-node-clause-grows t c =
    extends-trans c.args.table.now c.loop-field.table c.enter_field.new.table c.loop-field.invariant.grows c.in_err-node.ensures.grows

pub enter_fields-returns-in_err-push-clause-grows :
    goal.enter_fields-returns-in_err-push-clause-grows
enter_fields-returns-in_err-push-clause-grows t c =
    extends-trans c.args.table.now c.loop-field.table c.enter_field.new.table c.loop-field.invariant.grows c.in_ok-node.ensures.grows

pub enter_fields-loop-field-preserved : goal.enter_fields-loop-field-preserved
enter_fields-loop-field-preserved t c = record {
  grows = extends-trans c.args.table.now c.loop-field.table c.enter_field.new.table c.loop-field.invariant.grows c.in_ok-node.ensures.grows;
  entering =
      entering-step c.loop-field.table c.enter_field.new.table c.loop-field.made.items c.push.new.self.items c.in_ok-node.node c.args.fields.now c.loop-field.field-index
      c.field-item.result (list_tree c.args.fields.now) c.loop-field.invariant.entering c.in_ok-node.ensures.grows c.in_ok-node.ensures.node c.in_ok-push.ensures.items
      c.loop-field-test.true c.field-item.is;
  only =
      adds-field c.args.table.now c.loop-field.table c.enter_field.new.table c.args.fields.now c.loop-field.field-index c.field-item.result c.loop-field.invariant.only c.in_ok-node.ensures.only
      c.loop-field-test.true c.field-item.is;
}

pub enter_fields-returns-clause-list : goal.enter_fields-returns-clause-list
enter_fields-returns-clause-list t c =
    listed-as c.loop-field.table c.list.new.self c.list.result c.loop-field.made.items c.as_slice.result.now c.args.fields.now c.loop-field.field-index (list_tree c.args.fields.now)
    c.loop-field.invariant.entering c.loop-field-test.false c.list.ensures.nodes c.as_slice.ensures.value c.list.ensures.number

pub enter_fields-returns-clause-grows : goal.enter_fields-returns-clause-grows
enter_fields-returns-clause-grows t c =
    extends-trans c.args.table.now c.loop-field.table c.list.new.self c.loop-field.invariant.grows c.list.ensures.grows

"""


class Calls:
    """The names that a function's calls have in its goals: the first one's is the callee's, later ones name their arm."""

    def __init__(self):
        self.seen = set()

    def name(self, callee, variant):
        name, count = callee, 1
        while name in self.seen:
            name = f"{callee}-in-{variant}" + (f"-{count}" if count > 1 else '')
            count += 1
        self.seen.add(name)
        return f"c.{name}"


def wrapped(code, tree):
    return tree if code == 'V' else f"({WRAP[code]} {tree})"


def requires_of(function, made):
    """The goal for what the call that makes the node asks for."""
    name, _, arm = made[len('c.'):].partition('-in-')
    return f"{function}-{name}-requires" + (f"-in-{arm}" if arm else '')


def arm_answers(code, variant, ctor, kinds, calls, function):
    """The answers of one arm: where each call fails, and where the node is made."""
    fn, param = TYPES[code][2], PARAM[code]
    letters, trees, steps = iter('abc'), iter('xyz'), []
    args = []
    for k in kinds:
        if core(k) == 'L':
            args.append('fs')
            steps.append((2, 'fields', k, 'fs'))
        elif is_part(k):
            args.append(next(trees))
            steps.append((0, next(letters), k, args[-1]))
        else:
            data = {'z': 'number', 'k': 'mark'}[core(k)]
            args.append(f"c.in-{variant}.{data}")
            if core(k) == 'k':
                steps.append((1, 'mark', k, None))
    steps.sort(key=lambda step: step[0])
    entered = []
    for _, word, k, tree in steps:
        if core(k) == 'k':
            entered.append((word, k, tree, f"{calls.name('mark', variant)}.new.self", None))
            continue
        behind = None
        if core(k) == 'L':
            at = f"list_tree {calls.name('items', variant)}.result.now"
            later = f"list_tree c.in-{variant}.fields"
            table = calls.name('enter_fields', variant)
        else:
            behind = calls.name('deref', variant) if boxed(k) else None
            at = f"{TYPES[core(k)][2]}_tree " + (f"{behind}.result.now" if behind else f"c.in-{variant}.{word}")
            later = f"{TYPES[core(k)][2]}_tree c.in-{variant}.{word}" + ('.value' if boxed(k) else '')
            table = calls.name(f"enter_{WORD[core(k)]}", variant)
        entered.append((word, k, tree, f"{table}.new.table", (at, later, behind)))
    made = calls.name('make', variant)
    tree_now, built = f"{fn}_tree c.args.{param}.now", ' '.join(['tree.' + ctor] + args)
    several = sum(1 for k in kinds if is_part(k)) > 1

    listed = any(core(k) == 'L' for k in kinds)

    def whole_of(ends):
        """The lines that say which tree it is, with what is in the boxes that were opened up to this step."""
        if listed:
            return [f"let whole : {tree_now} ≡ {built} = search (rules, {fn}_tree-{variant}) in"]
        opened = {tree: (word, k, words[2]) for i, (word, k, tree, _, words) in enumerate(entered) if tree and words[2] and i <= ends}
        lines = [f"let in_{word} = sym {behind}.ensures in" for word, _, behind in opened.values()]
        shown = [f"({TYPES[core(opened[x][1])][2]}_tree (in_{opened[x][0]} i))" if x in opened else x for x in args]
        step = f" ∙ (λ i. tree.{ctor} {' '.join(shown)})" if opened else ''
        return lines + [f"let whole : {tree_now} ≡ {built} = ap (λ d. {fn}_tree d) c.in-{variant}.is{step} in"]

    def grown(ends):
        """That the table grows up to this step, and the table there."""
        last, chain = 'c.args.table.now', None
        for i, (word, _, _, table, _) in enumerate(entered[:ends + 1]):
            step = f"c.in_{'err' if i == ends else 'ok'}-{word}-in-{variant}.ensures.grows"
            chain = f"(extends-trans c.args.table.now {last} {table} {chain} {step})" if chain else step
            last = table
        return last, chain

    def arm_of(ends):
        """The lines up to the step of this number, which fails, or up to the end."""
        lines = ["let start = c.args.table.now in"]
        for i, (word, k, tree, table, words) in enumerate(entered):
            if tree:
                lines.append(f"let {tree} = {words[0] if i <= ends else words[1]} in")
        lines.append(f"let v = {WRAP[code]} ({tree_now}) in")
        lines.append(f"let w = {WRAP[code]} ({built}) in")
        lines += whole_of(ends)
        lines.append(f"let same : v ≡ w = ap (λ d. {WRAP[code]} d) whole in")
        last, chain = 'start', "(adds-self start v)"
        for i, (word, k, tree, table, words) in enumerate(entered[:ends + 1]):
            result = f"c.in_{'err' if i == ends else 'ok'}-{word}-in-{variant}.ensures"
            if core(k) == 'k':
                value = f"adds-pool start {last} {table} v {result}.nodes {chain}"
            elif core(k) == 'L':
                value = f"adds-fields start {last} {table} v w fs same (λ f m. {' '.join([f'part.{ctor}-field', 'f'] + args + ['m'])}) {chain} {result}.only"
            else:
                child = f"part.{ctor}" + (f"-{word}" if several else '')
                value = f"adds-part start {last} {table} v w {wrapped(core(k), tree)} same ({' '.join([child] + args)}) {chain} {result}.only"
            if i == ends:
                return lines + [value]
            lines.append(f"let after_{word} = {value} in")
            last, chain = table, f"after_{word}"
        return lines, last, chain

    out = []
    for i, (word, *_) in enumerate(entered):
        out.append((f"{function}-returns-in_err-{word}-in-{variant}-clause-only", arm_of(i)))
        out.append((f"{function}-returns-in_err-{word}-in-{variant}-clause-grows", [grown(i)[1]]))
    lines, last, chain = arm_of(len(entered))
    lines.append(f"let last = {last} in")
    places, trees, proofs, numbers, again = {}, [], [], [], ''
    for i, (word, k, tree, table, words) in enumerate(entered):
        ok = f"c.in_ok-{word}-in-{variant}"
        place = f"{ok}.{word}"
        if core(k) == 'k':
            places['k'] = (place, f"c.in-{variant}.mark", f"{ok}.ensures.number")
        elif core(k) == 'L':
            places['L'] = (place, tree, f"{ok}.ensures.list")
        else:
            value, proof, now = wrapped(core(k), tree), f"{ok}.ensures.node", table
            for later_word, _, _, later_table, _ in entered[i + 1:]:
                proof = f"(node-stays {now} {later_table} {place} {value} c.in_ok-{later_word}-in-{variant}.ensures.grows {proof})"
                now = later_table
            places[word] = (place, tree, proof)
    words = iter('abc')
    for k in kinds:
        if core(k) == 'z':
            # the call has the number as it is written to bits and read again
            lines.append(f"let z = c.in-{variant}.number in")
            lines.append("let read = to_z w64 (of_z w64 z) in")
            lines.append("let fits : SFits w64 z = search rules in")
            numbers.append('read')
            again = f" ∙ ap (λ d. {WRAP[code]} ({built.replace(f'c.in-{variant}.number', 'd')})) (to_z-of_z w64 z fits)"
            continue
        place, tree, proof = places[core(k) if core(k) in 'kL' else next(words)]
        numbers.append(place)
        trees.append(tree)
        proofs.append(proof)
    lemma = f"{camel(ctor)} last" if listed else f"{camel(ctor)} last.pools (nodes last)"
    shape = f"(s.{camel(ctor)} {' '.join(numbers)})"
    stands = ' '.join(numbers + trees + proofs)
    lets = [line for line in lines if line.startswith('let ') and not line.startswith('let after_')]
    said = f"let made : tree_in last {shape} ≡ v = tree-{'listed-' if listed else ''}{lemma} {stands}{again} ∙ sym same in"
    goal = f"{function}-returns-in_ok-{entered[-1][0]}-in-{variant}-clause"
    out.append((f"{goal}-only", lines + [said, f"adds-made start last {made}.new.self v {shape} made {chain} {made}.ensures.only"]))
    out.append((f"{goal}-node", lets + [said, f"made-as (nodes {made}.new.self) {made}.result (tree_in last {shape}) v made {made}.ensures.node"]))
    before, grows = grown(len(entered))
    out.append((f"{goal}-grows", [f"extends-trans c.args.table.now {before} {made}.new.self {grows} {made}.ensures.grows"]))
    wanted = [line for line in lets if line.split()[1] in trees + ['last', 'z', 'read', 'fs']]
    out.append((requires_of(function, made), wanted + [f"fits-{'listed-' if listed else ''}{lemma} {stands}"]))
    return out


def leaf(code, variant, ctor, kinds, calls, function):
    """The answers of an arm without parts."""
    fn, param, made = TYPES[code][2], PARAM[code], calls.name('make', variant)
    tree_now = f"{fn}_tree c.args.{param}.now"
    lines = ["let start = c.args.table.now in", f"let v = {WRAP[code]} ({tree_now}) in"]
    if kinds == ['n']:
        ok = f"c.in_ok-name-in-{variant}"
        name = calls.name('name', variant)
        built, shape = f"tree.{ctor} c.in-{variant}.name", f"(s.{camel(ctor)} {ok}.name)"
        lines += [f"let last = {name}.new.self in", f"let whole : {tree_now} ≡ {built} = ap (λ d. {fn}_tree d) c.in-{variant}.is in"]
        stands = f"{camel(ctor)} last.pools (nodes last) {ok}.name c.in-{variant}.name {ok}.ensures.number"
        goal = f"{function}-returns-in_ok-name-in-{variant}-clause"
        said = f"let made : tree_in last {shape} ≡ v = tree-{stands} ∙ ap (λ d. {WRAP[code]} d) (sym whole) in"
        return [
            (f"{goal}-only", lines + [said, f"adds-made start last {made}.new.self v {shape} made (adds-pool start start last v {ok}.ensures.nodes (adds-self start v)) {made}.ensures.only"]),
            (f"{goal}-node", lines + [said, f"made-as (nodes {made}.new.self) {made}.result (tree_in last {shape}) v made {made}.ensures.node"]),
            (f"{goal}-grows", [f"extends-trans c.args.table.now {name}.new.self {made}.new.self {ok}.ensures.grows {made}.ensures.grows"]),
            (requires_of(function, made), lines[2:3] + [f"fits-{stands}"]),
        ]
    number = f" c.in-{variant}.number" if kinds else ''
    again, read = '', number
    if kinds == ['z']:
        lines += [f"let z ={number} in", "let read = to_z w64 (of_z w64 z) in", "let fits : SFits w64 z = search rules in"]
        again, read = f" ∙ ap (λ d. {WRAP[code]} (tree.{ctor} d)) (to_z-of_z w64 z fits)", ' read'
    shape = f"(s.{camel(ctor)}{read})" if kinds else f"s.{camel(ctor)}"
    lines.append(f"let whole : {tree_now} ≡ tree.{ctor}{number} = ap (λ d. {fn}_tree d) c.in-{variant}.is in")
    lines.append(f"let made : tree_in start {shape} ≡ v = tree-{camel(ctor)} start.pools (nodes start){read}{again} ∙ ap (λ d. {WRAP[code]} d) (sym whole) in")
    goal = f"{function}-returns-in-{variant}-clause"
    return [
        (f"{goal}-only", lines + [f"adds-made start start {made}.new.self v {shape} made (adds-self start v) {made}.ensures.only"]),
        (f"{goal}-node", lines + [f"made-as (nodes {made}.new.self) {made}.result (tree_in start {shape}) v made {made}.ensures.node"]),
        (f"{goal}-grows", [f"{made}.ensures.grows"]),
    ]


def answers():
    arms = [(code, v, ctor, kinds) for code in 'TISFP' for v, ctor, kinds in TYPES[code][3]]
    steps = ', '.join(f"{TYPES[code][2]}_tree-{v}" for code, v, _, _ in arms)
    shapes = ', '.join(f"fits-{camel(ctor)}, tree-{camel(ctor)}" for _, _, ctor, kinds in arms if not any(core(k) == 'L' for k in kinds))
    out = [ANSWERS.replace('STEPS', steps).replace('SHAPES', shapes)]
    groups = [(code, f"enter_{WORD[code]}", [x for x in TYPES[code][3] if not is_atom(code, x[0])]) for code in 'TISFP']
    groups.append(('P', 'enter_atom', [x for x in TYPES['P'][3] if is_atom('P', x[0])]))
    for code, function, variants in groups:
        calls = Calls()
        for variant, ctor, kinds in variants:
            of_arm = arm_answers if any(is_part(k) for k in kinds) else leaf
            for goal, lines in of_arm(code, variant, ctor, kinds, calls, function):
                opens = f"unfolding {TYPES[code][2]}_tree\n" if any('_tree d) c.in-' in line for line in lines) else ''
                out.append(f"pub {goal} :\n    goal.{goal}\n{opens}{goal} t c =\n" + ''.join(f"    {line}\n" for line in lines))
    return '\n'.join(out)


def kept(c):
    """The answer for the clause `kept` of a call for others: as parts alone are added, none is where the tree is listed."""
    fn, param = TYPES[c][2], PARAM[c]
    call = f"c.enter_{WORD[c]}-node"
    return f"""-- Written by tools/enter.py.
use Rattle.jh_form.specs.Tree.{{{WRAP[c]}}}
use Rattle.jh_form.specs.Bare.{{{fn}_tree}}
use Rattle.jh_import.proofs.entering.Keeping.{{kept-parts}}
use Rattle.jh_import.proofs.entering.guarded.enter_{WORD[c]}.Goals as goal

pub returns-clause-kept : goal.returns-clause-kept
returns-clause-kept c =
    kept-parts c.args.table.now {call}.new.table ({WRAP[c]} ({fn}_tree c.args.{param}.now)) c.parts_come_first.ensures {call}.ensures.grows c.nodes_differ.ensures.different {call}.ensures.only
"""


if __name__ == '__main__':
    root = sys.argv[1]

    def write(path, text):
        path = f'{root}/crates/jh_import/{path}'
        os.makedirs(os.path.dirname(path), exist_ok=True)
        open(path, 'w').write(text)
    write('specs/entering/Atoms.antt', atoms_file())
    write('src/entering/entering.rt', code())
    write('src/entering/guarded.rt', guards())
    write('proofs/entering/EnterSteps.antt', steps())
    write('proofs/entering/entering/+entered/Answers.antt', answers())
    for c in 'TISFP':
        write(f"proofs/entering/guarded/enter_{WORD[c]}/Answers.antt", kept(c))
