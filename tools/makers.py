#!/usr/bin/env python3
"""Writes a function for each shape over nodes: a node is made from the nodes of its parts, with no proof at the call that the shape fits."""
from forms import core, is_part
from table import WRAP, IS, THE, names, shapes

# the function of each shape, and what its node is
MAKERS = {
    'null': ('null', 'null'),
    'read_object': ('read_object', 'a read of an object field'),
    'const': ('constant', 'a number'),
    'read_number': ('read_number', 'a read of a number field'),
    'add': ('sum', 'a sum'),
    'sub': ('difference', 'a difference of numbers'),
    'neg': ('negative', 'a number with the other sign'),
    'scale': ('multiple', 'a multiple'),
    'card': ('cardinality', 'the number of members of a set'),
    'read_set': ('read_set', 'a read of a set field'),
    'empty': ('empty_set', 'the empty set'),
    'univ': ('all_objects', 'the set of all objects'),
    'single': ('singleton', 'the set of one object'),
    'union': ('union_of', 'a union'),
    'inter': ('intersection', 'an intersection'),
    'diff': ('set_difference', 'a difference of sets'),
    'compl': ('complement', 'a complement'),
    'compr': ('comprehension', 'the set of the objects of which a formula is true, as the variable of a binder'),
    'update': ('update', 'a field with another value at one object'),
    'true_formula': ('truth', 'the formula that is true'),
    'false_formula': ('falsehood', 'the formula that is false'),
    'read_truth': ('read_truth', 'a read of a truth field'),
    'negation': ('negation', 'a negation'),
    'and': ('conjunction', 'a conjunction'),
    'or': ('disjunction', 'a disjunction'),
    'implies': ('implication', 'an implication'),
    'iff': ('equivalence', 'an equivalence'),
    'all': ('for_all', 'a formula said of all objects, as the variable of a binder'),
    'ex': ('for_some', 'a formula said of some object, as the variable of a binder'),
    'eq_object': ('same_object', 'an equation of objects'),
    'eq_number': ('same_number', 'an equation of numbers'),
    'eq_set': ('same_set', 'an equation of sets'),
    'less': ('less', 'that one number is less than another'),
    'less_equal': ('at_most', 'that one number is at most another'),
    'divides': ('divides', 'that a number divides another'),
    'member': ('member', 'that an object is in a set'),
    'subset': ('subset', 'that a set lies in another'),
}
CODES = 'TISFP'
FILE = {'T': 'objects', 'I': 'numbers', 'S': 'sets', 'F': 'fields', 'P': 'formulas'}


def at(n):
    return f"slice_get (nodes table.old) {n}"


def maker(code, ctor, variant, kinds):
    name, doc = MAKERS[ctor]
    ns = names(kinds)
    word = {'u': 'number', 'z': 'number'}
    args, params, requires, words = [], [], [], []
    for k, n in zip(kinds, ns):
        if is_part(k):
            args.append(n)
            params.append(f"{n}: usize")
            c = core(k)
            if c == 'V':
                requires.append((n, f"is_some ({at(n)}) ≡ true"))
            else:
                requires.append((n, f"{IS[c]} ({at(n)}) ≡ true"))
            words.append(f"({THE[c]} ({at(n)}))")
        else:
            w = word[core(k)]
            args.append(w)
            params.append(f"{w}: {'i64' if core(k) == 'z' else 'u32'}")
            words.append(w)
    shape = f"Shape::{variant}" + (f"({', '.join(args)})" if args else '')
    tree = f"{WRAP[code]} " + (f"(t.{ctor} {' '.join(words)})" if words else f"t.{ctor}")
    lines = [f"/// The node of {doc}.",
             f"pub fn {name}(table: &mut Table{''.join(', ' + p for p in params)}) -> Result<usize, NoMemory>"]
    lines += [f"    requires {n} {{ {r} }}" for n, r in requires]
    lines += [f"    ensures node {{ IfOk result (λ made. slice_get (nodes table.new) made ≡ Some ({tree})) }}",
              "    ensures grows { Extends table.old table.new }",
              "{", f"    table.make({shape})", "}"]
    return '\n'.join(lines)


def code_of(code):
    mine = [s for s in shapes() if s[0] == code and s[1] in MAKERS]
    body = '\n\n'.join(maker(*s) for s in mine)
    used = {n for s in mine for k in s[3] if is_part(k) for n in (IS[core(k)], THE[core(k)]) if n in body and n != 'is_some'}
    some = 'is_some' in body
    return f"""// Written by tools/makers.py.
#![tactic(auto, unfolding(crate::specs::table::Nodes::fits, crate::specs::table::Nodes::shape_tree))]

ghost use Rattle.std.specs.Prelude.{{◌≡◌, {'true, ' if ' ≡ true' in body else ''}IfOk, Some, {'is_some, ' if some else ''}slice_get}};
ghost use Rattle.jh_form.specs.Tree.{{{WRAP[code]}}};
ghost use Rattle.jh_form.specs.Tree as t;
""" + (f"ghost use Rattle.jh_arena.specs.table.Entries.{{{', '.join(sorted(used))}}};\n" if used else '') + f"""ghost use Rattle.jh_arena.specs.table.Growth.{{Extends}};
ghost use Rattle.jh_arena.specs.table.Nodes.{{nodes}};

use jh_boxed::jh_name::NoMemory;
use crate::table::{{Shape, Table}};

{body}
"""


if __name__ == '__main__':
    import sys
    top = sys.argv[1] if len(sys.argv) > 1 else '.'
    for code in CODES:
        with open(f"{top}/crates/jh_arena/src/makers/{FILE[code]}.rt", 'w') as out:
            out.write(code_of(code))
