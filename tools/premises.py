#!/usr/bin/env python3
"""Writes src/making.rt of jh_premises and the answers of its functions, which make formulas in straight lines.

Run `rt fmt` and `rt tidy` in the crate after it."""
import os

CRATE = os.path.join(os.path.dirname(os.path.abspath(__file__)), "..", "crates", "jh_derivation_steps")
KINDS = {
    "Formula": ("FormulaTree", "of_truth", "formula_at", "is-formula"),
    "Term": ("TermTree", "of_object", "term_at", "is-term"),
    "Set": ("SetTree", "of_set", "set_at", "is-set"),
    "Field": ("FieldTree", "of_field", "field_at", "is-field"),
    "Number": ("IntTree", "of_number", "number_at", "is-number"),
}
SHAPES = {
    "Negation": ("negation", "Formula"), "And": ("and", "Formula"), "Or": ("or", "Formula"), "Implies": ("implies", "Formula"),
    "Iff": ("iff", "Formula"), "All": ("all", "Formula"), "Ex": ("ex", "Formula"), "Member": ("member", "Formula"),
    "EqObject": ("eq_object", "Formula"), "EqNumber": ("eq_number", "Formula"), "EqSet": ("eq_set", "Formula"),
    "ReadObject": ("read_object", "Term"), "ReadNumber": ("read_number", "Number"), "ReadTruth": ("read_truth", "Formula"),
    "ReadSet": ("read_set", "Set"), "Bound": ("bound", "Term"),
}
F, T, S, D, N = "Formula", "Term", "Set", "Field", "Number"

# A function: its words, its parameters with their kinds, and its steps. The last step is the answer.
FUNCTIONS = [
    ("negation", "a negation", [("a", F)], [("made", "Negation", ["a"])]),
    ("not_both", "that one of two formulas is false", [("a", F), ("b", F)], [("left", "negation", ["a"]), ("right", "negation", ["b"]), ("made", "Or", ["left", "right"])]),
    ("neither", "that both of two formulas are false", [("a", F), ("b", F)], [("left", "negation", ["a"]), ("right", "negation", ["b"]), ("made", "And", ["left", "right"])]),
    ("without", "that the first of two formulas is true and the second false", [("a", F), ("b", F)], [("right", "negation", ["b"]), ("made", "And", ["a", "right"])]),
    ("unlike", "that one of two formulas is true exactly where the other is false", [("a", F), ("b", F)], [("right", "negation", ["b"]), ("made", "Iff", ["a", "right"])]),
    ("some_not", "that a formula is false of some object", [("a", F)], [("body", "negation", ["a"]), ("made", "Ex", ["body"])]),
    ("never", "that a formula is true of no object", [("a", F)], [("body", "negation", ["a"]), ("made", "All", ["body"])]),
    ("member", "a membership", [("x", T), ("a", S)], [("made", "Member", ["x", "a"])]),
    ("in_either", "that an object is a member of one of two sets", [("x", T), ("a", S), ("b", S)], [("left", "member", ["x", "a"]), ("right", "member", ["x", "b"]), ("made", "Or", ["left", "right"])]),
    ("in_both", "that an object is a member of both sets", [("x", T), ("a", S), ("b", S)], [("left", "member", ["x", "a"]), ("right", "member", ["x", "b"]), ("made", "And", ["left", "right"])]),
    ("outside", "that an object is no member of a set", [("x", T), ("a", S)], [("inside", "member", ["x", "a"]), ("made", "Negation", ["inside"])]),
    ("in_first", "that an object is a member of the first set and not of the second", [("x", T), ("a", S), ("b", S)], [("left", "member", ["x", "a"]), ("right", "outside", ["x", "b"]), ("made", "And", ["left", "right"])]),
    ("same_members", "that two sets have the same members", [("a", S), ("b", S)], [("object", "Bound", ["0"]), ("left", "member", ["object", "a"]), ("right", "member", ["object", "b"]), ("body", "Iff", ["left", "right"]), ("made", "All", ["body"])]),
    ("all_members", "that each member of a set is one of another", [("a", S), ("b", S)], [("object", "Bound", ["0"]), ("left", "member", ["object", "a"]), ("right", "member", ["object", "b"]), ("body", "Implies", ["left", "right"]), ("made", "All", ["body"])]),
    ("at_each", "that one formula is true at an object, and another at each other object; the object is the variable of the binder that is made", [("at", T), ("a", F), ("b", F)],
     [("object", "Bound", ["0"]), ("here", "EqObject", ["object", "at"]), ("left", "Implies", ["here", "a"]), ("elsewhere", "negation", ["here"]), ("right", "Implies", ["elsewhere", "b"]), ("body", "And", ["left", "right"]), ("made", "All", ["body"])]),
    ("same_objects", "that a field of objects gives the same at two terms", [("f", D), ("a", T), ("b", T)], [("left", "ReadObject", ["f", "a"]), ("right", "ReadObject", ["f", "b"]), ("made", "EqObject", ["left", "right"])]),
    ("same_numbers", "that a field of numbers gives the same at two terms", [("f", D), ("a", T), ("b", T)], [("left", "ReadNumber", ["f", "a"]), ("right", "ReadNumber", ["f", "b"]), ("made", "EqNumber", ["left", "right"])]),
    ("same_truths", "that a field of truths gives the same at two terms", [("f", D), ("a", T), ("b", T)], [("left", "ReadTruth", ["f", "a"]), ("right", "ReadTruth", ["f", "b"]), ("made", "Iff", ["left", "right"])]),
    ("same_sets", "that a field of sets gives the same at two terms", [("f", D), ("a", T), ("b", T)], [("left", "ReadSet", ["f", "a"]), ("right", "ReadSet", ["f", "b"]), ("made", "EqSet", ["left", "right"])]),
]
for word, equal, kind in [("objects", "EqObject", T), ("numbers", "EqNumber", N), ("truths", "Iff", F), ("sets", "EqSet", S)]:
    FUNCTIONS.append((f"equal_{word}", f"that two {word} are equal", [("a", kind), ("b", kind)], [("made", equal, ["a", "b"])]))
for word, read, equal, kind in [("objects", "ReadObject", "EqObject", T), ("numbers", "ReadNumber", "EqNumber", N), ("truths", "ReadTruth", "Iff", F), ("sets", "ReadSet", "EqSet", S)]:
    FUNCTIONS.append((f"updated_{word}", f"what an update of a field of {word} gives at each object", [("new", D), ("old", D), ("at", T), ("value", kind)],
                      [("object", "Bound", ["0"]), ("after", read, ["new", "object"]), ("before", read, ["old", "object"]), ("here", equal, ["after", "value"]), ("elsewhere", equal, ["after", "before"]), ("made", "at_each", ["at", "here", "elsewhere"])]))
BY_NAME = {f[0]: f for f in FUNCTIONS}


def tree_of(function, args):
    """The tree that a function makes of these trees, and its kind."""
    name, words, params, steps = function
    known = {p: (a, k) for (p, k), a in zip(params, args)}
    for var, call, given in steps:
        known[var] = applied(call, [known[g][0] if g in known else g for g in given])
    return known["made"]


def applied(call, args):
    if call in SHAPES:
        word, kind = SHAPES[call]
        return "(t." + word + "".join(" " + a for a in args) + ")", kind
    tree, kind = tree_of(BY_NAME[call], args)
    return tree, kind


def source():
    out = ["// Written by tools/premises.py.\n#![tactic(auto, using(crate::proofs::premises::MakeSteps::make_steps, jh_arena::proofs::table::Listed::growth_steps))]\n\n"
           "ghost use Rattle.std.specs.Prelude.{◌≡◌, IfOk, Some, slice_get};\n"
           "ghost use Rattle.jh_form.specs.Tree.{TermTree, IntTree, SetTree, FieldTree, FormulaTree, of_object, of_number, of_set, of_field, of_truth};\n"
           "ghost use Rattle.jh_form.specs.Tree as t;\nghost use Rattle.jh_arena.specs.table.Growth.{Extends};\nghost use Rattle.jh_arena.specs.table.Nodes.{nodes};\n"
           "ghost use Rattle.jh_derivation_steps.specs.premises.Nodes.{IsFormula, IsTerm, IsSet, IsField, IsNumber};\n\nuse jh_name::NoMemory;\nuse jh_arena::table::{Shape, Table};\n"]
    for name, words, params, steps in FUNCTIONS:
        out.append(f"\n/// The node of {words}.\npub fn {name}(table: &mut Table, " + ", ".join(f"{p}: usize" for p, k in params) + ") -> Result<usize, NoMemory>\n")
        for p, k in params:
            out.append(f"    requires {p} {{ Is{k} (nodes table.old) {p} }}\n")
        vs = ["u", "v", "w", "x"][:len(params)]
        tree, kind = tree_of((name, words, params, steps), vs)
        binders = " ".join(f"({v} : {KINDS[k][0]})" for v, (p, k) in zip(vs, params))
        premises = "".join(f"slice_get (nodes table.old) {p} ≡ Some ({KINDS[k][1]} {v}) → " for v, (p, k) in zip(vs, params))
        out.append(f"    ensures made {{ IfOk result (λ made. {binders} → {premises}slice_get (nodes table.new) made ≡ Some ({KINDS[kind][1]} {tree})) }}\n")
        out.append("    ensures grows { Extends table.old table.new }\n{\n")
        for var, call, given in steps:
            called = f"table.make(Shape::{call}({', '.join(given)}))" if call in SHAPES else f"{call}(table, {', '.join(given)})"
            out.append(f"    {called}\n" if var == "made" else f"    let {var} = {called}?;\n")
        out.append("}\n")
    return "".join(out)


class Walk:
    """What is known along the steps of one function: each node with its tree and a proof at the table where it was last known."""

    def __init__(self, params, trees, proofs):
        self.known = {p: (f"c.args.{p}", tr, k, pr, 0) for (p, k), tr, pr in zip(params, trees, proofs)}
        self.tables = ["c.args.table.now"]
        self.grows = []
        self.calls = {}

    def at(self, name, now):
        """The proof that a node has its tree in the table of the moment."""
        expr, tree, kind, proof, since = self.known[name]
        while since < now:
            proof = f"(keeps t{since} t{since + 1} {self.grows[since]} {expr} ({KINDS[kind][1]} {tree}) {proof})"
            since += 1
        return proof

    def step(self, var, call, given):
        now = len(self.tables) - 1
        word = "make" if call in SHAPES else call
        self.calls[word] = self.calls.get(word, 0) + 1
        mine = word if self.calls[word] == 1 else f"{word}-{self.calls[word]}"
        nodes = [g for g in given if g in self.known]
        trees = [self.known[g][1] if g in self.known else g for g in given]
        tree, kind = applied(call, trees)
        proofs = [self.at(g, now) for g in nodes]
        if call in SHAPES:
            args = [self.known[g][0] if g in self.known else g for g in given]
            shape = " ".join(args + ([t for g, t in zip(given, trees) if g in self.known]) + proofs)
            fits = f"fits-{call} t{now}.pools (nodes t{now}) {shape}"
            made = f"ap Some (tree-{call} t{now}.pools (nodes t{now}) {shape})"
        else:
            fits, made = None, " ".join(trees + proofs)
        table = f"c.{mine}.new." + ("self" if call in SHAPES else "table")
        return mine, now, nodes, proofs, tree, kind, fits, made, table

    def advance(self, var, mine, tree, kind, table, proof):
        self.tables.append(table)
        self.grows.append(f"c.{mine}.ensures.grows")
        self.known[var] = (f"c.in_ok-{var}.{var}", tree, kind, proof, len(self.tables) - 1)


def answers(function):
    name, words, params, steps = function
    out, used = [], set()

    def lets(walk):
        return "".join(f"    let t{i} = {t} in\n" for i, t in enumerate(walk.tables))

    walk = Walk(params, [f"({KINDS[k][2]} (nodes t0) c.args.{p})" for p, k in params], [f"c.requires" + (f".{p}") for p, k in params])
    ends = None
    for var, call, given in steps:
        mine, now, nodes, proofs, tree, kind, fits, made, table = walk.step(var, call, given)
        count = walk.calls["make" if call in SHAPES else call]
        tail = "" if count == 1 else f"-{count}"
        if call in SHAPES:
            out.append(f"pub make-requires{tail} : goal.make-requires{tail}\nmake-requires{tail} c =\n{lets(walk)}    {fits}\n")
            proof = f"(c.in_ok-{var}.ensures.node ∙ {made})"
        else:
            callee = BY_NAME[call]
            for (p, k), g, pr in zip(callee[2], given, proofs):
                goal = f"{call}-requires{tail}" + (f"-clause-{p}" if len(callee[2]) > 1 else "")
                expr = walk.known[g][0]
                is_so = f"{KINDS[k][3]} (nodes t{now}) {expr} {walk.known[g][1]} {pr}"
                if len(callee[2]) == 1:
                    is_so = f"record {{ {p} = {is_so} }}"
                out.append(f"pub {goal} : goal.{goal}\n{goal} c =\n{lets(walk)}    {is_so}\n")
            proof = f"(c.in_ok-{var}.ensures.made {made})"
        if var != "made":
            walk.advance(var, mine, tree, kind, table, proof)
    # the answer, over trees that a caller gives
    vs = ["u", "v", "w", "x"][:len(params)]
    walk = Walk(params, vs, [f"h{v}" for v in vs])
    for var, call, given in steps[:-1]:
        mine, now, nodes, proofs, tree, kind, fits, made, table = walk.step(var, call, given)
        proof = f"(c.in_ok-{var}.ensures.node ∙ {made})" if call in SHAPES else f"(c.in_ok-{var}.ensures.made {made})"
        walk.advance(var, mine, tree, kind, table, proof)
    var, call, given = steps[-1]
    mine, now, nodes, proofs, tree, kind, fits, made, table = walk.step(var, call, given)
    heads = " ".join(vs) + " " + " ".join(f"h{v}" for v in vs)
    if call in SHAPES:
        out.append(f"pub returns-clause-made : goal.returns-clause-made\nreturns-clause-made c =\n{lets(walk)}    if-ok c.{mine}.result (λ made node {heads}. node ∙ {made}) c.{mine}.ensures.node\n")
    else:
        out.append(f"pub returns-clause-made : goal.returns-clause-made\nreturns-clause-made c =\n{lets(walk)}    if-ok c.{mine}.result (λ made is {heads}. is {made}) c.{mine}.ensures.made\n")
    body = "\n".join(out)
    shapes = sorted({call for var, call, given in steps if call in SHAPES})
    head = ["-- Written by tools/premises.py.\n", "use Rattle.std.proofs.Common.{◌≡◌, ap, ◌∙◌, Some, slice_get}\n",
            "use Rattle.jh_form.specs.Tree.{TermTree, IntTree, SetTree, FieldTree, FormulaTree, of_object, of_number, of_set, of_field, of_truth}\nuse Rattle.jh_form.specs.Tree as t\n",
            "use Rattle.jh_arena.specs.table.Nodes.{nodes}\n"]
    if shapes:
        head.append("use Rattle.jh_arena.proofs.table.NodeSteps.{" + ", ".join(f"fits-{x}, tree-{x}" for x in shapes) + "}\n")
    head.append("use Rattle.jh_derivation_steps.specs.premises.Nodes.{formula_at, term_at, set_at, field_at, number_at}\n")
    head.append("use Rattle.jh_derivation_steps.proofs.premises.Carried.{if-ok, keeps, is-formula, is-term, is-set, is-field, is-number}\n")
    head.append(f"use Rattle.jh_derivation_steps.proofs.premises.making.{name}.Goals as goal\n\n")
    return "".join(head) + body


def main():
    with open(os.path.join(CRATE, "src", "premises", "making.rt"), "w") as f:
        f.write(source())
    for function in FUNCTIONS:
        if len(function[3]) == 1:
            continue
        folder = os.path.join(CRATE, "proofs", "premises", "making", function[0])
        os.makedirs(folder, exist_ok=True)
        with open(os.path.join(folder, "Answers.antt"), "w") as f:
            f.write(answers(function))


main()
