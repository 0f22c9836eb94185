#!/usr/bin/env python3
"""Writes the answers of the functions of jh_premises that go by the shape of a node.

Run `rt fmt` and `rt tidy` in the crate after it."""
import os

CRATE = os.path.join(os.path.dirname(os.path.abspath(__file__)), "..", "crates", "jh_derivation_steps")
KIND = {"Formula": ("truth", "formula_at"), "Term": ("object", "term_at"), "Set": ("set", "set_at"), "Field": ("field", "field_at")}
F, T, S = "Formula", "Term", "Set"

# A function: its file, its name, the argument whose shape is asked, its kind, what is wanted of its tree, the names that unfold, and its arms: the variant with its parts
# and their kinds, the call with its arguments and their kinds, and the tree that is made.
OPENING = [
    ("opening", "pushed", "node", F, "pushed", ["pushed"], [
        ("Negation", [("a", F)], None, [], "{a}"),
        ("And", [("a", F), ("b", F)], "not_both", ["a", "b"], "t.or (t.negation {a}) (t.negation {b})"),
        ("Or", [("a", F), ("b", F)], "neither", ["a", "b"], "t.and (t.negation {a}) (t.negation {b})"),
        ("Implies", [("a", F), ("b", F)], "without", ["a", "b"], "t.and {a} (t.negation {b})"),
        ("Iff", [("a", F), ("b", F)], "unlike", ["a", "b"], "t.iff {a} (t.negation {b})"),
        ("All", [("a", F)], "some_not", ["a"], "t.ex (t.negation {a})"),
        ("Ex", [("a", F)], "never", ["a"], "t.all (t.negation {a})"),
        ("True", [], "make False", [], "t.false_formula"),
        ("False", [], "make True", [], "t.true_formula"),
    ]),
    ("opening", "member_opened", "set", S, "(λ z. member_opened (term_at (nodes t0) c.args.object) z)", ["member_opened"], [
        ("Empty", [], "make False", [], "t.false_formula"),
        ("Univ", [], "make True", [], "t.true_formula"),
        ("Single", [("a", T)], "make EqObject", ["object", "a"], "t.eq_object {object} {a}"),
        ("Union", [("a", S), ("b", S)], "in_either", ["object", "a", "b"], "t.or (t.member {object} {a}) (t.member {object} {b})"),
        ("Inter", [("a", S), ("b", S)], "in_both", ["object", "a", "b"], "t.and (t.member {object} {a}) (t.member {object} {b})"),
        ("Diff", [("a", S), ("b", S)], "in_first", ["object", "a", "b"], "t.and (t.member {object} {a}) (t.negation (t.member {object} {b}))"),
        ("Compl", [("a", S)], "outside", ["object", "a"], "t.negation (t.member {object} {a})"),
        ("Compr", [("a", F)], "open", ["a", "object"], "opened {a} {object}"),
    ]),
    ("opening", "relation_opened", "node", F, "relation_opened", ["relation_opened"], [
        ("EqSet", [("a", S), ("b", S)], "same_members", ["a", "b"], "t.all (t.iff (t.member (t.bound 0) {a}) (t.member (t.bound 0) {b}))"),
        ("Subset", [("a", S), ("b", S)], "all_members", ["a", "b"], "t.all (t.implies (t.member (t.bound 0) {a}) (t.member (t.bound 0) {b}))"),
        ("Member", [("a", T), ("b", S)], "tail member_opened", ["a", "b"], ""),
    ]),
]
SHAPES = {
    F: [("True", ""), ("False", ""), ("FreeTruth", "n"), ("ReadTruth", "a b"), ("Negation", "a"), ("And", "a b"), ("Or", "a b"), ("Implies", "a b"), ("Iff", "a b"), ("All", "a"), ("Ex", "a"),
        ("EqObject", "a b"), ("EqNumber", "a b"), ("EqSet", "a b"), ("Less", "a b"), ("LessEqual", "a b"), ("Divides", "z a"), ("Member", "a b"), ("Subset", "a b"), ("Reach", "l a b"),
        ("Tree", "l"), ("Mark", "m a")],
    S: [("FreeSet", "n"), ("ReadSet", "a b"), ("Empty", ""), ("Univ", ""), ("Single", "a"), ("Union", "a b"), ("Inter", "a b"), ("Diff", "a b"), ("Compl", "a"), ("Compr", "a")],
}
ARGUMENTS = {"member_opened": {"object": T}}
FORMALS = {"in_either": ["x", "a", "b"], "in_both": ["x", "a", "b"], "in_first": ["x", "a", "b"], "outside": ["x", "a"]}


def written(function):
    module, name, subject, kind, wanted, unfolds, arms = function
    the, at = KIND[kind]
    known = ARGUMENTS.get(name, {})
    unfolding = "unfolding " + " ".join(unfolds + ["shape_tree", "the_truth", "the_set", "the_object", "is_object"])
    out, seen, parts_used, trees_used = [], set(), set(), set()

    def node(a, v):
        return f"c.args.{a}" if a in known else f"c.in-{v}.{a}"

    def tree(a, v, parts):
        k = known.get(a) or dict(parts)[a]
        return f"({KIND[k][1]} (nodes t0) {node(a, v)})"

    def is_part(a, v, parts):
        word = KIND[dict(parts)[a]][0]
        given = " ".join(f"c.in-{v}.{p}" for p, k in parts)
        parts_used.add(f"part-{v}-{a}")
        return f"(part-{v}-{a} t0.pools (nodes t0) {given} (fits-at t0 c.shape.result (s.{v} {given}) c.shape.ensures.fits c.in-{v}.is))", word

    def stands(a, v, parts):
        if a in known:
            return f"c.requires.{a}"
        fact, word = is_part(a, v, parts)
        return f"(it-is-{word} (slice_get (nodes t0) {node(a, v)}) {fact})"

    for v, parts, call, given, makes in arms:
        shape = "s." + v if not parts else f"(s.{v} " + " ".join(f"c.in-{v}.{p}" for p, k in parts) + ")"
        made_tree = "" if not makes else "(" + makes.format(**{a: tree(a, v, parts) for a in [p for p, k in parts] + list(known)}) + ")"
        says = f"({KIND[kind][1].replace('_at', '-at')} {wanted} t0 c.args.{subject} c.shape.result {shape} c.shape.ensures.tree c.in-{v}.is)"
        wants = f"({wanted} ({at} (nodes t0) c.args.{subject}))" if not wanted.startswith("(λ") else f"(member_opened (term_at (nodes t0) c.args.object) ({at} (nodes t0) c.args.{subject}))"
        head = "    let t0 = c.args.table.now in\n"
        if call is None:
            goal = f"returns-in-{v}"
            a = parts[0][0]
            fact = stands(a, v, parts)
            out.append(f"pub {goal}-clause-made : goal.{goal}-clause-made\n{unfolding}\n{goal}-clause-made c =\n{head}    arm (nodes t0) {node(a, v)} {made_tree} {wants} {says} {fact}\n")
            continue
        if call.startswith("tail"):
            word = call.split()[1]
            for formal, a in (("object", "a"), ("set", "b")):
                out.append(f"pub {word}-requires-clause-{formal} : goal.{word}-requires-clause-{formal}\n{word}-requires-clause-{formal} c =\n{head}    {stands(a, v, parts)}\n")
            closed = says.replace(wanted + " t0", "(λ f. is_closed_formula f 0) t0", 1)
            out.append(f"pub {word}-requires-clause-closed : goal.{word}-requires-clause-closed\n{unfolding} is_closed_formula\n{word}-requires-clause-closed c =\n{head}"
                       f"    both-left (is_closed_term {tree('a', v, parts)} 0) (is_closed_set {tree('b', v, parts)} 0) (sym {closed} ∙ c.requires.closed)\n")
            out.append(f"pub returns-in-{v}-clause-made : goal.returns-in-{v}-clause-made\n{unfolding}\nreturns-in-{v}-clause-made c =\n{head}"
                       f"    subst (λ (o : Option FormulaTree). Makes (nodes c.{word}.new.table) o c.{word}.result) (sym {says}) c.{word}.ensures.made\n")
            continue
        word = call.split()[0]
        mine = f"c.{word}" if word not in seen else f"c.{word}-in-{v}"
        seen.add(word)
        new = mine + (".new.self" if word == "make" else ".new.table")
        ok = f"c.in_ok-{word}-in-{v}"
        if word == "make":
            x = call.split()[1]
            trees_used.add(x)
            args = " ".join([node(a, v) for a in given] + [tree(a, v, parts) for a in given] + [stands(a, v, parts) for a in given])
            made = f"({ok}.ensures.node ∙ ap Some (tree-{x} t0.pools (nodes t0) {args}))".replace(" ))", "))")
            if given:
                goal = f"make-requires-in-{v}"
                out.append(f"pub {goal} : goal.{goal}\n{goal} c =\n{head}    fits-{x} t0.pools (nodes t0) {args}\n")
        elif word == "open":
            made = f"{ok}.ensures.tree"
            fact, w = is_part("a", v, parts)
            out.append(f"pub open-requires-clause-body : goal.open-requires-clause-body\nopen-requires-clause-body c =\n{head}    {fact}\n")
            out.append(f"pub open-requires-clause-with : goal.open-requires-clause-with\n{unfolding}\nopen-requires-clause-with c = ap is_object c.requires.object\n")
        else:
            made = f"({ok}.ensures.made " + " ".join([tree(a, v, parts) for a in given] + [stands(a, v, parts) for a in given]) + ")"
            formals = FORMALS.get(word, given)
            for formal, a in zip(formals, given):
                if a in known:
                    continue
                goal = f"{word}-requires" + (f"-clause-{formal}" if len(given) > 1 else "")
                is_so = stands(a, v, parts) if len(given) > 1 else f"record {{ {formal} = {stands(a, v, parts)} }}"
                out.append(f"pub {goal} : goal.{goal}\n{goal} c =\n{head}    {is_so}\n")
        goal = f"returns-in_ok-{word}-in-{v}-clause-made"
        out.append(f"pub {goal} : goal.{goal}\n{unfolding}\n{goal} c =\n{head}    arm (nodes {new}) {ok}.field-0 {made_tree} {wants} {says} {made}\n")
    nots = " ".join(f"c.in_default.not-{v}" for v, parts, call, given, makes in arms)
    extra = "(term_at (nodes c.args.table.now) c.args.object) " if name == "member_opened" else ""
    out.append(f"pub returns-in_default : goal.returns-in_default\n{unfolding} option_formula IsMade is_{KIND[kind][0]}\nreturns-in_default c =\n    let t0 = c.args.table.now in\n"
               f"    record {{ made = (sym ({KIND[kind][1].replace('_at', '-at')} {wanted} t0 c.args.{subject} c.shape.result c.shape.result c.shape.ensures.tree refl ∙ {name}-none t0.pools (nodes t0) {extra}c.shape.result (ap is_{KIND[kind][0]} (sym c.shape.ensures.tree ∙ c.requires.{subject})) {nots}), tt); grows = extends-refl t0 }}\n")
    uses = ["use Rattle.std.proofs.Common.{◌≡◌, refl, sym, ap, subst, ◌∙◌, Some, slice_get}", "use Rattle.std.specs.Prelude.{Option}", "use Rattle.jh_form.specs.Tree.{FormulaTree}",
            "use Rattle.jh_form.specs.Closed.{is_closed_term, is_closed_set, is_closed_formula}", "use Rattle.jh_form.proofs.ClosedLemmas.{both-left}",
            "use Rattle.jh_form.specs.Tree as t", "use Rattle.jh_boxed_operations.specs.substitution.Opened.{opened}",
            "use Rattle.jh_arena.specs.table.Entries.{the_truth, the_set, the_object, is_object, is_truth, is_set}", "use Rattle.jh_arena.specs.table.Nodes.{nodes, shape_tree}",
            "use Rattle.jh_arena.specs.declared.table.shapes.Shape.TheVariants as s",
            "use Rattle.jh_arena.proofs.table.PartSteps.{" + ", ".join(sorted(parts_used)) + "}",
            *(["use Rattle.jh_arena.proofs.table.NodeSteps.{" + ", ".join(sorted(f"tree-{x}, fits-{x}" for x in trees_used)) + "}"] if trees_used else []),
            "use Rattle.jh_arena.proofs.table.Children.{it-is-truth, it-is-object, it-is-set, it-is-field}",
            "use Rattle.jh_derivation_rules.specs.Rules.{" + ", ".join(unfolds) + "}",
            "use Rattle.jh_derivation_steps.specs.premises.Nodes.{formula_at, term_at, set_at, field_at, option_formula, IsMade, Makes}",
            "use Rattle.jh_derivation_steps.proofs.premises.Shaping.{fits-at, formula-at, set-at, arm}",
            "use Rattle.jh_arena.proofs.table.Listed.{extends-refl}",
            f"use Rattle.jh_derivation_steps.proofs.premises.Others.{{{name}-none}}",
            f"use Rattle.jh_derivation_steps.proofs.premises.{module}.{name}.Goals as goal"]
    return "-- Written by tools/premises_arms.py.\n" + "\n".join(uses) + "\n\n" + "\n".join(out)


def others():
    """Lemmas on the shapes that a function names in no arm."""
    out = ["-- Written by tools/premises_arms.py.\n-- What is wanted of nodes of the other shapes: nothing.\nuse Rattle.std.proofs.Common.{◌≡◌, refl, sym, ℕ, List, None, Some, true}\nuse Rattle.std.proofs.lemmas.Bool.{true≢false}\n"
           "use Rattle.jh_form.specs.Tree.{ValueTree, TermTree}\nuse Rattle.jh_arena.specs.table.Entries.{Pools, the_truth, the_set, is_truth, is_set}\nuse Rattle.jh_arena.specs.table.Nodes.{shape_tree}\n"
           "use Rattle.jh_arena.specs.declared.table.shapes.Shape.{Shape}\nuse Rattle.jh_arena.specs.declared.table.shapes.Shape.TheVariants as s\n"
           "use Rattle.jh_derivation_rules.specs.Rules.{pushed, member_opened, relation_opened}\n"]
    for module, name, subject, kind, wanted, unfolds, arms in OPENING:
        the = "the_" + KIND[kind][0]
        extra = "(w : TermTree) " if name == "member_opened" else ""
        given = "w " if extra else ""
        premises = " → ".join((f"(({' '.join(p for p, k in parts)} : ℕ) → x ≡ s.{v} {' '.join(p for p, k in parts)} → ⊥)" if parts else f"(x ≡ s.{v} → ⊥)") for v, parts, c, g, m in arms)
        out.append(f"\npub {name}-none : (p : Pools) (ts : List ValueTree) {extra}(x : Shape) → is_{KIND[kind][0]} (Some (shape_tree p ts x)) ≡ true → {premises} → {name} {given}({the} (Some (shape_tree p ts x))) ≡ None\nunfolding {' '.join(unfolds)} shape_tree {the} is_{KIND[kind][0]}\n")
        hs = [f"h{i}" for i in range(len(arms))]
        named = {v: i for i, (v, parts, c, g, m) in enumerate(arms)}
        for v, parts in SHAPES[kind]:
            shape = f"(s.{v} {parts})" if parts else f"s.{v}"
            answer = f"absurd (h{named[v]} {parts + ' ' if parts else ''}refl)" if v in named else "refl"
            out.append(f"{name}-none p ts {given}{shape} k {' '.join(hs)} = {answer}\n")
        out.append(f"{name}-none p ts {given}_ k {' '.join(hs)} = absurd (true≢false (sym k))\n")
    return "".join(out)


def main():
    with open(os.path.join(CRATE, "proofs", "premises", "Others.antt"), "w") as f:
        f.write(others())
    for function in OPENING:
        folder = os.path.join(CRATE, "proofs", "premises", function[0], function[1])
        os.makedirs(folder, exist_ok=True)
        with open(os.path.join(folder, "Answers.antt"), "w") as f:
            f.write(written(function))


main()
