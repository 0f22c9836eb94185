#!/usr/bin/env python3
"""Writes the functions of jh_ways and jh_reach that make a formula step by step, each a chain of calls that answer nodes, and the
answers that prove them. A row of a table is a function: its words, its name, its parameters, its steps and the tree at
its answer. Run at the top of the repository; then `rt fmt` in the crate."""
import os, re

# The shapes that are used: how their node is proved to fit and which tree it is, by the trees of the parts.
SHAPES = {
    'Bound': ('object', ['number'], '(t.bound {0})'),
    'Null': ('object', [], 't.null'),
    'ReadObject': ('object', ['field', 'object'], '(t.read_object {0} {1})'),
    'EqObject': ('truth', ['object', 'object'], '(t.eq_object {0} {1})'),
    'Negation': ('truth', ['truth'], '(t.negation {0})'),
    'And': ('truth', ['truth', 'truth'], '(t.and {0} {1})'),
    'Or': ('truth', ['truth', 'truth'], '(t.or {0} {1})'),
    'Implies': ('truth', ['truth', 'truth'], '(t.implies {0} {1})'),
    'Iff': ('truth', ['truth', 'truth'], '(t.iff {0} {1})'),
    'All': ('truth', ['truth'], '(t.all {0})'),
    'Ex': ('truth', ['truth'], '(t.ex {0})'),
    'Reach': ('truth', ['list', 'object', 'object'], '(t.reach (listed {0}) {1} {2})'),
    'Tree': ('truth', ['list'], '(t.tree (listed {0}))'),
}

# A parameter is a name with a kind. `fields` comes behind the list that it is of.
# (words, name, parameters, steps, tree); a step is (variable, call, arguments), the last has no variable.
WAYS = [
    ("The node of that an object isn't null.", 'not_null', 'object:object',
     'null=Null(); same=EqObject(object, null); Negation(same)', 'differ {object} t.null', 'truth'),
    ("The node of that y is reached from x by a way that doesn't go on from an object.", 'stops_at', 'list:list at:object from:object to:object',
     'on=Reach(list, from, to); before=Reach(list, from, at); after=Reach(list, to, at); stops=Implies(before, after); And(on, stops)',
     'stops_at {list} {at} {from} {to}', 'truth'),
    ('The node of that an edge is on a way from x to y.', 'goes_through', 'list:list field:field at:object from:object to:object',
     'child=ReadObject(field, at); differs=not_null(child); before=Reach(list, from, at); after=Reach(list, child, to); both=And(before, after); And(differs, both)',
     't.and (differ (child {field} {at}) t.null) (t.and (way {list} {from} {at}) (way {list} (child {field} {at}) {to}))', 'truth'),
    ('The node of that y is reached from x by a way that leaves out an edge.', 'leaves_out', 'list:list field:field at:object from:object to:object',
     'on=Reach(list, from, to); through=goes_through(list, field, at, from, to); around=Negation(through); And(on, around)',
     'leaves_out {list} {field} {at} {from} {to}', 'truth'),
    ('The node of that fields are a forest, and of what is said beside that.', 'in_forest', 'list:list beside:truth',
     'trees=Tree(list); And(trees, beside)', 't.and (forest {list}) {beside}', 'truth'),
]

TERMS = [
    ('The node of the object to which a field leads from a bound variable.', 'child_of', 'field:field variable:number',
     'object=Bound(variable); ReadObject(field, object)', 'child {field} (t.bound {variable})', 'object'),
    ('The node of that two bound variables are one object.', 'one_object', 'left:number right:number',
     'first=Bound(left); second=Bound(right); EqObject(first, second)', 't.eq_object (t.bound {left}) (t.bound {right})', 'truth'),
    ('The node of that one bound variable reaches another.', 'way', 'list:list from:number to:number',
     'first=Bound(from); second=Bound(to); Reach(list, first, second)', 'way {list} (t.bound {from}) (t.bound {to})', 'truth'),
    ('The node of a formula said of two objects.', 'for_two', 'body:truth',
     'inner=All(body); All(inner)', 't.all (t.all {body})', 'truth'),
    ('The node of that a formula follows from another, said of two objects.', 'follows_for_two', 'premise:truth end:truth',
     'body=Implies(premise, end); for_two(body)', 't.all (t.all (t.implies {premise} {end}))', 'truth'),
    ('The node of that a formula follows from another, said of three objects.', 'follows_for_three', 'premise:truth end:truth',
     'two=follows_for_two(premise, end); All(two)', 't.all (t.all (t.all (t.implies {premise} {end})))', 'truth'),
]

FIELDS = [
    ('The node of that a field leads from null to null.', 'ends_at_null', 'field:field',
     'null=Null(); child=ReadObject(field, null); EqObject(child, null)', 'ends_at_null {field}', 'truth'),
    ('The node of that x reaches its child.', 'reaches_child', 'list:list field:field',
     'object=Bound(0); child=ReadObject(field, object); Reach(list, object, child)', 'reaches_child {list} {field}', 'truth'),
    ('The node of that the child of x reaches y.', 'child_reaches', 'list:list field:field',
     'child=child_of(field, 1); object=Bound(0); Reach(list, child, object)', 'child_reaches {list} {field}', 'truth'),
    ('The node of that a field leads from w to y.', 'leads_there', 'field:field',
     'child=child_of(field, 0); object=Bound(1); EqObject(child, object)', 'leads_there {field}', 'truth'),
    ("The node of that the child of x doesn't reach x.", 'leads_not_back', 'list:list field:field',
     'child=child_of(field, 0); object=Bound(0); back=Reach(list, child, object); Negation(back)', 'leads_not_back {list} {field}', 'truth'),
    ("The node of that a field leads from x and from y to one object that isn't null.", 'one_child', 'field:field',
     'first=child_of(field, 1); second=child_of(field, 0); same=EqObject(first, second); differs=not_null(first); And(same, differs)',
     't.and (t.eq_object (child {field} (t.bound 1)) (child {field} (t.bound 0))) (differ (child {field} (t.bound 1)) t.null)', 'truth'),
    ("The node of that a field leads to an object that isn't null from one object only.", 'has_one_parent', 'field:field',
     'child=one_child(field); parent=one_object(1, 0); Implies(child, parent)', 'has_one_parent {field}', 'truth'),
    ('The node of that two fields lead from x and from y to no object but null.', 'share_no_child', 'field:field other:field',
     'first=child_of(field, 1); second=child_of(other, 0); same=EqObject(first, second); null=Null(); none=EqObject(first, null); Implies(same, none)',
     'share_no_child {field} {other}', 'truth'),
]

AXIOMS = [
    ('The node of that each object reaches itself.', 'reach_itself', 'list:list',
     'body=way(list, 0, 0); All(body)', 'reach_itself {list}', 'truth'),
    ('The node of that each object reaches its children.', 'reach_children', 'list:along fields:fields',
     'body=each(list, fields, Part::ReachesChild); All(body)', 'reach_children {list}', 'truth'),
    ('The node of that x is y, or some child of x reaches y.', 'begins', 'list:along fields:fields',
     'same=one_object(1, 0); step=some(list, fields, Part::ChildReaches); Or(same, step)',
     't.or (t.eq_object (t.bound 1) (t.bound 0)) (disjoined (map (child_reaches {list}) {list}))', 'truth'),
    ('The node of that a way is no step or begins with one.', 'first_step', 'list:along fields:fields',
     'premise=way(list, 1, 0); end=begins(list, fields); follows_for_two(premise, end)', 'first_step {list}', 'truth'),
    ('The node of that x reaches an object from which some field leads to y.', 'last_object', 'list:along fields:fields',
     'to=way(list, 2, 0); step=some(list, fields, Part::LeadsThere); body=And(to, step); Ex(body)',
     't.ex (t.and (way {list} (t.bound 2) (t.bound 0)) (disjoined (map leads_there {list})))', 'truth'),
    ('The node of that x is y, or reaches an object from which some field leads to y.', 'ends', 'list:along fields:fields',
     'same=one_object(1, 0); step=last_object(list, fields); Or(same, step)',
     't.or (t.eq_object (t.bound 1) (t.bound 0)) (t.ex (t.and (way {list} (t.bound 2) (t.bound 0)) (disjoined (map leads_there {list}))))', 'truth'),
    ('The node of that a way is no step or ends with one.', 'last_step', 'list:along fields:fields',
     'premise=way(list, 1, 0); end=ends(list, fields); follows_for_two(premise, end)', 'last_step {list}', 'truth'),
    ('The node of that ways join.', 'ways_join', 'list:list',
     'first=way(list, 2, 1); second=way(list, 1, 0); premise=And(first, second); end=way(list, 2, 0); follows_for_three(premise, end)', 'ways_join {list}', 'truth'),
    ('The node of that one of two bound variables reaches the other.', 'either_way', 'list:list left:number right:number',
     'on=way(list, left, right); back=way(list, right, left); Or(on, back)',
     't.or (way {list} (t.bound {left}) (t.bound {right})) (way {list} (t.bound {right}) (t.bound {left}))', 'truth'),
    ('The node of that of two objects that one reaches along one field one reaches the other.', 'ways_on', 'list:list',
     'first=way(list, 2, 1); second=way(list, 2, 0); premise=And(first, second); end=either_way(list, 1, 0); follows_for_three(premise, end)', 'ways_on {list}', 'truth'),
    ("The node of that two ways lead to an object that isn't null.", 'ways_meet', 'list:list',
     'first=way(list, 2, 0); second=way(list, 1, 0); object=Bound(0); differs=not_null(object); rest=And(second, differs); And(first, rest)',
     't.and (way {list} (t.bound 2) (t.bound 0)) (t.and (way {list} (t.bound 1) (t.bound 0)) (differ (t.bound 0) t.null))', 'truth'),
    ("The node of that of two objects that reach one that isn't null one reaches the other.", 'ways_behind', 'list:list',
     'premise=ways_meet(list); end=either_way(list, 2, 1); follows_for_three(premise, end)',
     't.all (t.all (t.all (t.implies (t.and (way {list} (t.bound 2) (t.bound 0)) (t.and (way {list} (t.bound 1) (t.bound 0)) (differ (t.bound 0) t.null))) (t.or (way {list} (t.bound 2) (t.bound 1)) (way {list} (t.bound 1) (t.bound 2))))))', 'truth'),
    ('The node of that the fields are a forest and lead from null to null.', 'ends_in_forest', 'list:along fields:fields',
     'null=each(list, fields, Part::EndsAtNull); in_forest(list, null)', 't.and (forest {list}) (end_at_null {list})', 'truth'),
    ("The node of that in a forest, of two objects that reach one that isn't null, one reaches the other.", 'ways_up', 'list:along fields:fields',
     'premise=ends_in_forest(list, fields); end=ways_behind(list); Implies(premise, end)', 'ways_up {list}', 'truth'),
    ('The node of that what null reaches is null.', 'only_null', 'list:list',
     'null=Null(); object=Bound(0); premise=Reach(list, null, object); end=EqObject(object, null); body=Implies(premise, end); All(body)',
     't.all (t.implies (way {list} t.null (t.bound 0)) (t.eq_object (t.bound 0) t.null))', 'truth'),
    ('The node of that null reaches null alone where each field leads from null to null.', 'null_reaches_null', 'list:along fields:fields',
     'premise=each(list, fields, Part::EndsAtNull); end=only_null(list); Implies(premise, end)', 'null_reaches_null {list}', 'truth'),
    ('The node of that no object but null is reached from its children.', 'reached_by_none', 'list:along fields:fields',
     'object=Bound(0); premise=not_null(object); end=each(list, fields, Part::LeadsNotBack); body=Implies(premise, end); All(body)',
     't.all (t.implies (differ (t.bound 0) t.null) (joined (map (leads_not_back {list}) {list})))', 'truth'),
    ('The node of that in a forest no object but null is reached from its children.', 'no_way_back', 'list:along fields:fields',
     'premise=Tree(list); end=reached_by_none(list, fields); Implies(premise, end)', 'no_way_back {list}', 'truth'),
    ("The node of that in a forest an object that isn't null has one parent, along one field.", 'one_parent', 'list:along fields:fields',
     'premise=Tree(list); body=parents(list, fields); end=for_two(body); Implies(premise, end)', 'one_parent {list}', 'truth'),
]

UPDATES = [
    ('The node of what the ways along one field are, by those before an update.', 'ways_before', 'list:list at:object value:object from:object to:object',
     'kept=stops_at(list, at, from, to); before=Reach(list, from, at); after=stops_at(list, at, value, to); through=And(before, after); Or(kept, through)',
     't.or (stops_at {list} {at} {from} {to}) (t.and (way {list} {from} {at}) (stops_at {list} {at} {value} {to}))', 'truth'),
    ('The node of that a way to an object that changed goes on from its new child.', 'goes_on', 'list:list field:field at:object value:object from:object to:object',
     'before=Reach(list, from, at); differs=not_null(value); after=leaves_out(list, field, at, value, to); rest=And(differs, after); And(before, rest)',
     't.and (way {list} {from} {at}) (t.and (differ {value} t.null) (leaves_out {list} {field} {at} {value} {to}))', 'truth'),
    ('The node of what the ways along several fields are, by those before an update.', 'ways_around', 'list:list field:field at:object value:object from:object to:object',
     'kept=leaves_out(list, field, at, from, to); through=goes_on(list, field, at, value, from, to); Or(kept, through)',
     't.or (leaves_out {list} {field} {at} {from} {to}) (t.and (way {list} {from} {at}) (t.and (differ {value} t.null) (leaves_out {list} {field} {at} {value} {to})))', 'truth'),
    ('The node of that the new ways along one field are told by the old ones.', 'told_by_one', 'new:list old:list at:object value:object',
     'from=Bound(1); to=Bound(0); on=Reach(new, from, to); ways=ways_before(old, at, value, from, to); body=Iff(on, ways); for_two(body)',
     't.all (t.all (t.iff (way {new} (t.bound 1) (t.bound 0)) (t.or (stops_at {old} {at} (t.bound 1) (t.bound 0)) (t.and (way {old} (t.bound 1) {at}) (stops_at {old} {at} {value} (t.bound 0))))))', 'truth'),
    ('The node of that the new ways along several fields are told by the old ones.', 'told_by_several', 'new:list old:list field:field at:object value:object',
     'from=Bound(1); to=Bound(0); on=Reach(new, from, to); ways=ways_around(old, field, at, value, from, to); end=Iff(on, ways); premise=not_null(to); follows_for_two(premise, end)',
     't.all (t.all (t.implies (differ (t.bound 0) t.null) (t.iff (way {new} (t.bound 1) (t.bound 0)) (t.or (leaves_out {old} {field} {at} (t.bound 1) (t.bound 0)) (t.and (way {old} (t.bound 1) {at}) (t.and (differ {value} t.null) (leaves_out {old} {field} {at} {value} (t.bound 0))))))))', 'truth'),
    ("The node of that the old fields are a forest and lead from null to null, and the object that changed isn't null.", 'before_change', 'list:along fields:fields at:object',
     'null=each(list, fields, Part::EndsAtNull); differs=not_null(at); rest=And(null, differs); in_forest(list, rest)',
     't.and (forest {list}) (t.and (end_at_null {list}) (differ {at} t.null))', 'truth'),
]

# functions that are written by hand, as chains call them
OTHERS = [
    ('', 'each', 'list:along fields:fields part:part', '', 'joined (map (part_tree {part} {list}) {list})', 'truth'),
    ('', 'some', 'list:along fields:fields part:part', '', 'disjoined (map (part_tree {part} {list}) {list})', 'truth'),
    ('', 'changed_ways', 'new:list old:along fields:fields field:field at:object value:object', '', 'changed_ways {new} {old} {field} {at} {value}', 'truth'),
    ('', 'ways_compare', 'list:along fields:fields', '', 'ways_compare {list}', 'truth'),
    ('', 'parents', 'list:along fields:fields', '', 'joined (map has_one_parent {list} ++ pairs_share_no_child {list})', 'truth'),
]

# the axiom of an update, over what is chosen by the number of fields
WHOLE = [
    ('The node of the axiom of an update: `new` is the list after it, and `old` that before it, whose fields are given.', 'update_axiom', 'new:list old:along fields:fields field:field at:object value:object',
     'premise=before_change(old, fields, at); end=changed_ways(new, old, fields, field, at, value); Implies(premise, end)',
     't.implies (t.and (forest {old}) (t.and (end_at_null {old}) (differ {at} t.null))) (changed_ways {new} {old} {field} {at} {value})', 'truth'),
]

# functions that answer the nodes of several axioms: the last step is left out
GROUPS = [
    ('The nodes of the five axioms of a list of fields that say what a way is.', 'first_axioms', 'list:along fields:fields',
     'itself=reach_itself(list); children=reach_children(list, fields); first=first_step(list, fields); last=last_step(list, fields); join=ways_join(list)',
     'first_of_list {list}', 'truth'),
    ('The nodes of the four axioms of a list of fields that say what ways are in forests and from null.', 'last_axioms', 'list:along fields:fields',
     'compare=ways_compare(list, fields); null=null_reaches_null(list, fields); back=no_way_back(list, fields); parent=one_parent(list, fields)',
     'last_of_list {list}', 'truth'),
]

FILES = [
    ('jh_path_formulas', 'ways', WAYS, []),
    ('jh_reach', 'terms', TERMS, []),
    ('jh_reach', 'fields', FIELDS, ['use crate::terms::{child_of, one_object};', 'use jh_path_formulas::not_null;']),
    ('jh_reach', 'nine', AXIOMS, ['use crate::lists::{each, parents, some};', 'use crate::parts::Part;',
                        'use crate::terms::{follows_for_three, follows_for_two, for_two, one_object, way};', 'use jh_path_formulas::{in_forest, not_null};']),
    ('jh_reach', 'groups', GROUPS + WHOLE, ['use crate::nine::{first_step, last_step, no_way_back, null_reaches_null, one_parent, reach_children, reach_itself, ways_join};',
                        'use crate::choices::{changed_ways, ways_compare};', 'use crate::updates::before_change;']),
    ('jh_reach', 'updates', UPDATES, ['use crate::lists::each;', 'use crate::parts::Part;', 'use crate::terms::{follows_for_two, for_two};',
                        'use jh_path_formulas::{in_forest, leaves_out, not_null, stops_at};']),
]
PUBLIC = {'child_of', 'one_object', 'not_null', 'way', 'for_two', 'follows_for_two', 'follows_for_three', 'ends_at_null', 'reaches_child',
          'child_reaches', 'leads_there', 'leads_not_back', 'has_one_parent', 'share_no_child', 'reach_itself', 'reach_children', 'first_step',
          'last_step', 'ways_join', 'ways_on', 'ways_up', 'first_axioms', 'last_axioms', 'null_reaches_null', 'no_way_back', 'one_parent', 'told_by_one', 'told_by_several', 'before_change', 'update_axiom', 'stops_at', 'leaves_out', 'in_forest'}
ALL = {row[1]: row for table in (WAYS, TERMS, FIELDS, AXIOMS, UPDATES, WHOLE, GROUPS, OTHERS) for row in table}
SORTED = {'field': ('HoldsField', 'FieldTree', 'of_field', 'holds-field', 'the_field'),
          'object': ('HoldsObject', 'TermTree', 'of_object', 'holds-object', 'the_object'),
          'truth': ('HoldsFormula', 'FormulaTree', 'of_truth', 'holds-formula', 'the_truth')}
GHOSTS = {'list': 'fs', 'new': 'fs', 'old': 'gs', 'field': 'f', 'other': 'g', 'object': 'a', 'at': 'a', 'value': 'v', 'from': 'x', 'to': 'y', 'body': 'a', 'premise': 'a', 'end': 'b', 'beside': 'b'}
AS = {'object': 'of_object', 'truth': 'of_truth'}


def params(row):
    return [p.split(':') for p in row[2].split()]


def steps(row):
    found = []
    for text in row[3].split('; '):
        name, call, args = re.fullmatch(r'(?:(\w+)=)?(\w+)\((.*)\)', text).groups()
        found.append((name, call, [a for a in args.split(', ') if a]))
    return found


def ghosts(row):
    return [(p, k, GHOSTS[p]) for p, k in params(row) if k in ('list', 'along', 'field', 'object', 'truth')]


def premise(row, p, k, g):
    if k == 'list':
        return f'IsList table.old {p} (listed {g})'
    if k == 'along':
        return f'AreFields table.old fields.now {g}'
    return f'slice_get (nodes table.old) {p} ≡ Some ({SORTED[k][2]} {g})'


def tree_of(row, values):
    return row[4].format(**values)


def clauses(row):
    out = []
    for p, k in params(row):
        if k == 'list':
            out.append(f'    requires {p} {{ IsList table.old {p} (list_at table.old {p}) }}')
        elif k == 'along':
            out.append(f'    requires along {{ IsAlong table.old {p} fields.now }}')
        elif k in SORTED:
            out.append(f'    requires {p} {{ {SORTED[k][0]} table.old {p} }}')
    gs = ghosts(row)
    values = {p: p for p, k in params(row)}
    values.update({p: g for p, k, g in gs})
    binders = ''
    for p, k, g in gs:
        sort = 'List FieldTree' if k in ('list', 'along') else SORTED[k][1]
        binders += f'({g} : {sort}) '
    given = ''.join(premise(row, p, k, g) + ' → ' for p, k, g in gs)
    lead = f'{binders}→ {given}' if gs else ''
    if row in GROUPS:
        out.append(f'    ensures nodes {{ {lead}IfOk result (λ made. AreFormulas table.new made ({tree_of(row, values)})) }}')
        out.append('    ensures grows { Extends table.old table.new }')
        return '\n'.join(out)
    out.append(f'    ensures node {{ {lead}IfOk result (λ made. slice_get (nodes table.new) made ≡ Some ({AS[row[5]]} ({tree_of(row, values)}))) }}')
    out.append('    ensures grows { Extends table.old table.new }')
    return '\n'.join(out)


TYPES = {'list': 'usize', 'along': 'usize', 'fields': '&[usize]', 'field': 'usize', 'object': 'usize', 'truth': 'usize', 'number': 'u32', 'part': 'Part'}


def code(row):
    words, name = row[0], row[1]
    signature = ', '.join(['table: &mut Table'] + [f'{p}: {TYPES[k]}' for p, k in params(row)])
    body = []
    for var, call, args in steps(row):
        if call in SHAPES:
            inner = f'Shape::{call}({", ".join(args)})' if args else f'Shape::{call}'
            text = f'table.make({inner})'
        else:
            text = f'{call}({", ".join(["table"] + args)})'
        body.append(f'    let {var} = {text}?;' if var else f'    {text}')
    pub = 'pub ' if name in PUBLIC else ''
    answer = 'usize'
    if row in GROUPS:
        body.append(f'    Ok([{", ".join(var for var, call, args in steps(row))}])')
        answer = f'[usize; {len(steps(row))}]'
    return f'/// {words}\n{pub}fn {name}({signature}) -> Result<{answer}, NoMemory>\n{clauses(row)}\n{{\n' + '\n'.join(body) + '\n}\n'


class Chain:
    """The facts along the steps of a function: what stands at which node in which table, either of what its clause
    `requires` or of what its caller gives."""

    def __init__(self, row, given):
        self.row, self.given = row, given
        self.calls = {}
        self.tables = ['c.args.table.now']
        self.grows = []
        self.at = {}
        self.numbers = {}
        for p, k in params(row):
            arg = f'c.args.{p}'
            if k in ('number', 'part'):
                self.numbers[p] = arg
            elif k == 'list':
                tree = GHOSTS[p] if given else f'(unlisted (list_at c.args.table.now {arg}))'
                fact = f'h_{p}' if given else f'(list-of c.args.table.now {arg} c.requires.{p})'
                self.at[p] = ('list', 0, tree, fact, arg)
            elif k == 'along':
                self.list = arg
                tree = GHOSTS[p] if given else '(fields_in (nodes c.args.table.now) c.args.fields.now)'
                fields = f'h_{p}' if given else f'(along-fields c.args.table.now {arg} c.args.fields.now c.requires.along)'
                self.at[p] = ('list', 0, tree, f'(along-list c.args.table.now {arg} c.args.fields.now {tree} c.requires.along {fields})', arg)
                self.at['fields'] = ('fields', 0, tree, fields, 'c.args.fields.now')
            elif k in SORTED:
                tree = GHOSTS[p] if given else f'({SORTED[k][4]} (slice_get (nodes c.args.table.now) {arg}))'
                fact = f'h_{p}' if given else f'c.requires.{p}'
                self.at[p] = (k, 0, tree, fact, arg)

    def fact(self, name, now):
        kind, since, tree, fact, arg = self.at[name]
        for i in range(since, now):
            if kind == 'list':
                fact = f'(list-grows {self.tables[i]} {self.tables[i + 1]} {arg} (listed {tree}) {self.grows[i]} {fact})'
            elif kind == 'fields':
                fact = f'(fields-grow {self.tables[i]} {self.tables[i + 1]} {arg} {tree} {self.grows[i]} {fact})'
            else:
                fact = f'({self.grows[i]}.nodes.keeps {arg} ({SORTED[kind][2]} {tree}) {fact})'
        return fact

    def along(self, now):
        text = 'c.requires.along'
        for i in range(now):
            text = f'(along-grows {self.tables[i]} {self.tables[i + 1]} {self.list} c.args.fields.now {self.grows[i]} {text})'
        return text

    def value(self, arg):
        return self.numbers.get(arg, part_name(arg))

    def call_name(self, call):
        base = 'make' if call in SHAPES else call
        self.calls[base] = self.calls.get(base, 0) + 1
        return base, base if self.calls[base] == 1 else f'{base}-{self.calls[base]}'

    # what a shape's node is, and that it fits
    def shape(self, call, args, now, word):
        table = self.tables[now]
        kinds = SHAPES[call][1]
        if kinds[:1] == ['list']:
            kind, since, tree, fact, arg = self.at[args[0]]
            rest = args[1:]
            nodes = [self.at[a][4] for a in rest]
            trees = [self.at[a][2] for a in rest]
            facts = [self.fact(a, now) for a in rest]
            return f'{word}-listed-{call} {table} ' + ' '.join([arg] + nodes + [f'(listed {tree})'] + trees + [self.fact(args[0], now)] + facts)
        lead = f'{word}-{call} {table}.pools (nodes {table})'
        if kinds == ['number']:
            return f'{lead} {self.value(args[0])}'
        nodes = [self.at[a][4] for a in args]
        trees = [self.at[a][2] for a in args]
        return ' '.join([lead] + nodes + trees + [self.fact(a, now) for a in args])

    def shape_term(self, call, args):
        words = [self.value(a) if a not in self.at else self.at[a][4] for a in args]
        return f'(s.{call} {" ".join(words)})' if words else f's.{call}'

    def shape_tree(self, call, args):
        words = [self.at[a][2] if a in self.at else self.value(a) for a in args]
        return SHAPES[call][2].format(*words)

    def requires(self, call, args, now):
        callee = ALL[call]
        fields = []
        for (p, k), a in zip(params(callee), args):
            if k == 'list':
                tree, arg = self.at[a][2], self.at[a][4]
                fields.append(f'{p} = list-there {self.tables[now]} {arg} (listed {tree}) {self.fact(a, now)}')
            elif k == 'along':
                fields.append(f'along = {self.along(now)}')
            elif k in SORTED:
                arg, tree = self.at[a][4], self.at[a][2]
                fields.append(f'{p} = {SORTED[k][3]} (slice_get (nodes {self.tables[now]}) {arg}) {tree} {self.fact(a, now)}')
        return 'record { ' + '; '.join(fields) + ' }' if fields else None

    # the arguments with which the clause of a call says what its node is
    def told(self, call, args, now):
        callee = ALL[call]
        trees, facts = [], []
        for (p, k), a in zip(params(callee), args):
            if k in ('list', 'field', 'object', 'truth'):
                trees.append(self.at[a][2])
                facts.append(self.fact(a, now))
            elif k == 'along':
                trees.append(self.at[a][2])
                facts.append(self.fact('fields', now))
        return ' '.join(trees + facts)

    def call_tree(self, call, args):
        callee = ALL[call]
        values = {}
        for (p, k), a in zip(params(callee), args):
            values[p] = self.at[a][2] if a in self.at else self.value(a)
        return '(' + tree_of(callee, values) + ')'

    def walk(self, answers):
        for number, (var, call, args) in enumerate(steps(self.row)):
            now = number
            base, name = self.call_name(call)
            is_make = call in SHAPES
            if answers is not None:
                goal = f'{base}-requires' + (f'-{self.calls[base]}' if self.calls[base] > 1 else '')
                term = self.shape(call, args, now, 'fits') if is_make else self.requires(call, args, now)
                if term:
                    answers.append((goal, f'c = {term}'))
            table = f'c.{name}.new.self' if is_make else f'c.{name}.new.table'
            if var is None:
                self.last = (call, args, now, name, table, is_make)
                self.grows.append(f'c.{name}.ensures.grows')
                self.tables.append(table)
                return
            self.tables.append(table)
            self.grows.append(f'c.{name}.ensures.grows')
            if is_make:
                tree = self.shape_tree(call, args)
                fact = f'(c.in_ok-{var}.ensures.node ∙ ap (λ z. Some z) ({self.shape(call, args, now, "tree")}))'
                sort = SHAPES[call][0]
            else:
                tree = self.call_tree(call, args)
                fact = f'(c.in_ok-{var}.ensures.node {self.told(call, args, now)})'
                if not self.told(call, args, now):
                    fact = f'c.in_ok-{var}.ensures.node'
                sort = ALL[call][5]
            self.at[var] = (sort, now + 1, tree, fact, f'c.in_ok-{var}.{var}')
            if answers is not None:
                answers.append((f'returns-in_err-{var}-clause-grows', f'c = {self.all_grows()}'))

    def all_grows(self):
        text = self.grows[0]
        for i in range(1, len(self.grows)):
            text = f'(extends-trans c.args.table.now {self.tables[i]} {self.tables[i + 1]} {text} {self.grows[i]})'
        return text

    def node(self):
        call, args, now, name, table, is_make = self.last
        if not is_make:
            told = self.told(call, args, now)
            return f'c.{name}.ensures.node {told}' if told else f'c.{name}.ensures.node'
        sort = SHAPES[call][0]
        old = self.tables[now]
        return f'made-as (nodes {table}) c.{name}.result (tree_in {old} {self.shape_term(call, args)}) ({AS[sort]} {self.shape_tree(call, args)}) ({self.shape(call, args, now, "tree")}) c.{name}.ensures.node'


def part_name(arg):
    return 'p.' + arg[6:] if arg.startswith('Part::') else arg


def answers(crate, module, row):
    out = []
    Chain(row, False).walk(out)
    chain = Chain(row, True)
    chain.walk(None)
    gs = ghosts(row)
    binders = 'λ ' + ' '.join([g for p, k, g in gs] + [f'h_{p}' for p, k, g in gs]) + '. ' if gs else ''
    if row in GROUPS:
        many = [chain.fact(var, len(chain.grows)) for var, call, args in steps(row)]
        out.append(('returns-clause-nodes', f'c = {binders}' + ''.join(f'({fact}, ' for fact in many) + 'tt' + ')' * len(many)))
    else:
        out.append(('returns-clause-node', f'c = {binders}{chain.node()}'))
    out.append(('returns-clause-grows', f'c = {chain.all_grows()}'))
    text = HEAD.format(theirs=THEIRS[crate], crate=crate, module=module, name=row[1])
    for goal, body in out:
        opened = 'unfolding part_tree\n' if 'Part::' in row[3] else ''
        opened = 'unfolding AreFormulas\n' if goal == 'returns-clause-nodes' else opened
        text += f'\npub {goal} : goal.{goal}\n{opened}{goal} {body}\n'
    return text


# what the answers of a crate's functions cite of it
THEIRS = {
    'jh_path_formulas': '''use Rattle.jh_path_formulas.specs.Ways.{listed, child, differ, way, forest, stops_at, leaves_out, list_at}
''',
    'jh_reach': '''use Rattle.jh_reach.specs.declared.parts.Part.TheVariants as p
use Rattle.jh_arena.specs.makers.Joined.{joined}
use Rattle.jh_path_formulas.specs.Ways.{listed, child, differ, way, forest, stops_at, leaves_out, list_at}
use Rattle.jh_reach.specs.Axioms.{disjoined, end_at_null, child_reaches, leads_there, leads_not_back, has_one_parent, pairs_share_no_child, ends_at_null, reaches_child, share_no_child, changed_ways, ways_compare, reach_itself, reach_children, first_step, last_step, ways_join, null_reaches_null, no_way_back, one_parent}
use Rattle.jh_reach.specs.Parts.{part_tree}
use Rattle.jh_reach.specs.Standing.{AreFormulas, fields_in}
use Rattle.jh_reach.proofs.Standings.{fields-grow, along-list, along-fields, along-grows}
''',
}

HEAD = '''-- Written by tools/reach.py.
use Rattle.std.proofs.Common.{{ap, ◌∙◌, Some, slice_get, map, ◌++◌}}
use Rattle.jh_form.specs.Tree.{{of_object, of_field, of_truth}}
use Rattle.jh_form.specs.Tree as t
use Rattle.jh_arena.specs.table.Entries.{{the_field, the_object, the_truth}}
use Rattle.jh_arena.specs.table.Nodes.{{nodes, tree_in}}
use Rattle.jh_arena.specs.declared.table.shapes.Shape.TheVariants as s
use Rattle.jh_arena.proofs.table.NodeSteps.{{fits-Bound, tree-Bound, fits-Null, tree-Null, fits-ReadObject, tree-ReadObject, fits-EqObject, tree-EqObject, fits-Negation, tree-Negation, fits-And, tree-And, fits-Or, tree-Or, fits-Implies, tree-Implies, fits-Iff, tree-Iff, fits-All, tree-All, fits-Ex, tree-Ex}}
use Rattle.jh_arena.proofs.table.Listed.{{extends-trans}}
use Rattle.jh_import.proofs.entering.Fields.{{fits-listed-Reach, tree-listed-Reach, fits-listed-Tree, tree-listed-Tree, made-as}}
use Rattle.jh_path_formulas.proofs.NodeSteps.{{list-there, list-of, list-grows, unlisted, holds-field, holds-object, holds-formula}}
{theirs}use Rattle.{crate}.proofs.{module}.{name}.Goals as goal
'''

# what the clauses of a crate's functions cite
CLAUSES = {
    'jh_path_formulas': '''ghost use Rattle.jh_path_formulas.specs.Ways.{listed, child, differ, way, forest, stops_at, leaves_out, HoldsField, HoldsObject, HoldsFormula, list_at};
''',
    'jh_reach': '''ghost use Rattle.jh_arena.specs.makers.Joined.{joined};
ghost use Rattle.jh_path_formulas.specs.Ways.{listed, child, differ, way, forest, stops_at, leaves_out, HoldsField, HoldsObject, HoldsFormula, list_at};
ghost use Rattle.jh_reach.specs.Axioms.{disjoined, end_at_null, ends_at_null, reaches_child, child_reaches, leads_there, leads_not_back, has_one_parent, share_no_child, pairs_share_no_child, reach_itself, reach_children, first_step, last_step, ways_join, ways_on, ways_up, null_reaches_null, no_way_back, one_parent, changed_ways, first_of_list, last_of_list};
ghost use Rattle.jh_reach.specs.Standing.{AreFields, AreFormulas, IsAlong};
''',
}

SOURCE = '''// Written by tools/reach.py.
#![tactic(auto)]

ghost use Rattle.std.specs.Prelude.{{◌≡◌, ◌++◌, List, map, IfOk, Some, slice_get}};
ghost use Rattle.jh_form.specs.Tree.{{TermTree, FieldTree, FormulaTree, of_object, of_field, of_truth}};
ghost use Rattle.jh_form.specs.Tree as t;
ghost use Rattle.jh_arena.specs.table.Growth.{{Extends}};
ghost use Rattle.jh_arena.specs.table.Nodes.{{nodes}};
ghost use Rattle.jh_import.specs.entering.Entered.{{IsList}};
{clauses}
{uses}use jh_name::NoMemory;
use jh_arena::table::{{Shape, Table}};

'''


def main():
    for crate, module, table, uses in FILES:
        root = f'crates/{crate}'
        text = SOURCE.format(clauses=CLAUSES[crate], uses=''.join(u + '\n' for u in uses)) + '\n'.join(code(row) for row in table)
        os.makedirs(f'{root}/src', exist_ok=True)
        with open(f'{root}/src/{module}.rt', 'w') as out:
            out.write(text)
        for row in table:
            folder = f'{root}/proofs/{module}/{row[1]}'
            os.makedirs(folder, exist_ok=True)
            with open(f'{folder}/Answers.antt', 'w') as out:
                out.write(answers(crate, module, row))


main()
