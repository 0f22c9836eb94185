#!/usr/bin/env python3
"""Writes the comparison of two trees: the relation, the test, and their proofs."""
import sys
sys.path.insert(0, __file__.rsplit('/', 1)[0])
from forms import TYPES, ORDER, TREES, core, is_part, boxed, names, apply, call, tree_type, tree_of, fn_of, LETTER

WRAP = {'T': 'of_object', 'I': 'of_number', 'S': 'of_set', 'F': 'of_field', 'P': 'of_truth'}
EQUAL = {'u': 'nat_eq', 'n': 'name_equal', 'z': 'int_eq', 'k': 'mark_equal'}
REL = {'T': 'TermsRelated', 'I': 'IntsRelated', 'S': 'SetsRelated', 'F': 'FieldsRelated', 'V': 'ValuesRelated', 'P': 'FormulasRelated', 'L': 'ListsRelated'}


def others(ns):
    return [n + "'" for n in ns]


def related_specs():
    out = [f"""-- One tree with some parts exchanged for others.
use Rattle.std.specs.Prelude.{{ℕ, ℤ}}
use Rattle.jh_boxed.specs.jh_name.declared.naming.Name.{{Name}}
use Rattle.jh_form.specs.declared.mark.Mark.{{Mark}}
use Rattle.jh_form.specs.Tree.{{{TREES}}}
use Rattle.jh_form.specs.Tree as t

-- The second tree is the first with some parts exchanged: a part for one that X allows in its place.
-- Labels are compared.
mutual"""]
    for code in ORDER:
        rust, tree, fn, variants = TYPES[code]
        out.append(f"  pub data {REL[code]} (X : ValueTree → ValueTree → Type 0) : {tree} → {tree} → Type 0 where")
        if code != 'V':
            out.append(f"    {fn}_here : (a b : {tree}) → X (t.{WRAP[code]} a) (t.{WRAP[code]} b) → {REL[code]} X a b")
        for variant, ctor, kinds in variants:
            ns = names(kinds)
            ms = [n + "'" if is_part(k) else n for k, n in zip(kinds, ns)]
            sig = ''.join(f"({n}{' ' + m if m != n else ''} : {tree_of(k)}) " for k, n, m in zip(kinds, ns, ms))
            prem = ''.join(f"{REL[core(k)]} X {n} {m} → " for k, n, m in zip(kinds, ns, ms) if is_part(k))
            out.append(f"    {ctor} : {sig + '→ ' if sig else ''}{prem}{REL[code]} X {apply('t.' + ctor, ns)} {apply('t.' + ctor, ms)}")
        out.append('')
    out.append(f"""  pub data ListsRelated (X : ValueTree → ValueTree → Type 0) : FieldTrees → FieldTrees → Type 0 where
    none : ListsRelated X t.none t.none
    more : (f f' : FieldTree) (fs fs' : FieldTrees) → FieldsRelated X f f' → ListsRelated X fs fs' → ListsRelated X (t.more f fs) (t.more f' fs')
""")
    return '\n'.join(out)


def with_sig(kinds):
    return ' → '.join([tree_of(k) for k in kinds] + ['Bool'])


def all_ctors():
    for code in ORDER:
        for variant, ctor, kinds in TYPES[code][3]:
            yield code, variant, ctor, kinds, names(kinds)
    yield 'L', None, 'none', [], []
    yield 'L', None, 'more', ['F.', 'L'], ['f', 'fs']


def part_test(kinds, ns, labels='w'):
    ms = others(ns)
    tests = [f"related_{fn_of(core(k))} {n} {labels} p {m}" if is_part(k) else f"{EQUAL[core(k)]} {n} {m}" for k, n, m in zip(kinds, ns, ms)]
    return tests, ms


def test_case(code, ctor, kinds, ns):
    tests, ms = part_test(kinds, ns)
    other = '(seen w s)' if code == 'P' else 's'
    if not kinds:
        rest = f"{ctor}_with {other}"
    else:
        rest = f"{ctor}_with (λ {' '.join(ms)}. {' && '.join(tests)}) {other}"
    if ctor == 'mark':
        rest = f"by_labels w ({rest}) (related_formula a w p {other})"
    if code in ('V', 'L'):
        return rest
    return f"p (t.{WRAP[code]} {apply('t.' + ctor, ns)}) (t.{WRAP[code]} s) || {rest}"


def tests_specs():
    out = [f"""-- The test of whether a tree is another with some parts exchanged, as the code asks it. Labels are compared, or passed.
use Rattle.std.specs.Prelude.{{ℕ, ℤ, Bool, true, false, ◌&&◌, ◌||◌, nat_eq}}
use Rattle.std.specs.Ordering.{{int_eq}}
use Rattle.jh_boxed.specs.jh_name.declared.naming.Name.{{Name}}
use Rattle.jh_form.specs.declared.mark.Mark.{{Mark}}
use Rattle.jh_form.specs.Tree.{{{TREES}}}
use Rattle.jh_form.specs.Tree as t
use Rattle.jh_form.specs.Passing.{{name_equal}}
use Rattle.jh_boxed_operations.specs.comparison.Marks.{{mark_equal}}

-- a test of the parts of a tree of one form; a tree of another form doesn't pass"""]
    for code, variant, ctor, kinds, ns in all_ctors():
        f = f"{ctor}_with"
        if kinds:
            out.append(f"unfoldable pub {f} : ({with_sig(kinds)}) → {tree_type(code)} → Bool")
            out.append(f"{f} q {apply('t.' + ctor, ns)} = {call('q', ns)}")
            if len(TYPES[code][3] if code != 'L' else [1, 2]) > 1:
                out.append(f"{f} q _ = false")
        else:
            out.append(f"unfoldable pub {f} : {tree_type(code)} → Bool")
            out.append(f"{f} t.{ctor} = true")
            out.append(f"{f} _ = false")
        out.append('')
    out.append("""-- the formula under the labels that stand around it
unfoldable pub past : FormulaTree → FormulaTree
past (t.mark k a) = past a
past a = a

-- a formula as it is compared: with its labels, or past them
abbrev pub seen : Bool → FormulaTree → FormulaTree
seen true s = s
seen false s = past s

-- one thing where labels are compared, and another where they are passed
abbrev pub by_labels : {X : Type 0} → Bool → X → X → X
by_labels true x y = x
by_labels false x y = y
""")
    out.append("-- with whether labels are compared, and which parts may be exchanged\nunfoldable mutual")
    for code in ORDER + 'L':
        f = f"related_{fn_of(code)}"
        out.append(f"  pub {f} : {tree_type(code)} → Bool → (ValueTree → ValueTree → Bool) → {tree_type(code)} → Bool")
        for c, variant, ctor, kinds, ns in all_ctors():
            if c == code:
                out.append(f"  {f} {apply('t.' + ctor, ns)} w p s = {test_case(code, ctor, kinds, ns)}")
        out.append('')
    return '\n'.join(out)


HEAD = f"""use Rattle.std.specs.Ordering.{{int_eq}}
use Rattle.jh_boxed.specs.jh_name.declared.naming.Name.{{Name}}
use Rattle.jh_form.specs.declared.mark.Mark.{{Mark}}
use Rattle.jh_form.specs.Tree.{{{TREES}}}
use Rattle.jh_form.specs.Tree as t
use Rattle.jh_form.specs.Passing.{{name_equal}}
use Rattle.jh_boxed_operations.specs.comparison.Marks.{{mark_equal}}
"""


def with_names():
    return ', '.join(f"{ctor}_with" for _, _, ctor, _, _ in all_ctors())


def related_names():
    return ', '.join(f"related_{fn_of(c)}" for c in ORDER + 'L')


def steps_file():
    """Equations of the test at each constructor and of each `with` at its own form and at others of the program."""
    out = [f"""-- The test at each constructor, and a form's test at the program's values.
use Rattle.std.proofs.Common.{{◌≡◌, refl, sym, ap, ◌∙◌, ℕ, ℤ, Bool, true, false, ◌&&◌, ◌||◌, nat_eq, List}}
{HEAD}{chr(10).join(f"use Rattle.jh_form.specs.declared.form.{TYPES[c][0]}.{{{TYPES[c][0]}}}" for c in ORDER)}
{chr(10).join(f"use Rattle.jh_form.specs.declared.form.{TYPES[c][0]}.TheVariants as {LETTER[c]}" for c in ORDER)}
use Rattle.jh_form.specs.declared.form.Formula.{{roll-out-Formula, roll-Formula}}
use Rattle.jh_form.specs.declared.form.FieldTerm.TheViews.{{outs-Reach', rolls-Reach, outs-Tree', rolls-Tree}}
use Rattle.jh_form.specs.declared.form.FieldTerm.TheBlock.{{shown-the_row-FieldTerm-0}}
use Rattle.std.specs.declared.boxed.Box.{{Box}}
use Rattle.std.specs.declared.alloc.Global.{{Global}}
use Rattle.jh_form.specs.Bare.{{{', '.join(TYPES[c][2] + '_tree' for c in ORDER)}}}
use Rattle.jh_boxed_operations.specs.comparison.Compared.{{{with_names()}, {related_names()}, past, seen, by_labels}}
"""]
    rules = []
    for code, variant, ctor, kinds, ns in all_ctors():
        f = f"related_{fn_of(code)}"
        lemma = f"{f}-{ctor}"
        rules.append(lemma)
        sig = ''.join(f"({n} : {tree_of(k)}) " for k, n in zip(kinds, ns))
        out.append(f"pub {lemma} : {sig}(w : Bool) (p : ValueTree → ValueTree → Bool) (s : {tree_type(code)}) → {f} {apply('t.' + ctor, ns)} w p s ≡ ({test_case(code, ctor, kinds, ns)})")
        out.append(f"unfolding {f}")
        out.append(f"{call(lemma, ns)} w p s = refl\n")
        lemma = f"{ctor}_with-here"
        rules.append(lemma)
        q = f"(q : {with_sig(kinds)}) " if kinds else ''
        arrow = (q + sig).strip()
        out.append(f"pub {lemma} : {arrow + ' → ' if arrow else ''}{ctor}_with {'q ' if kinds else ''}{apply('t.' + ctor, ns)} ≡ {call('q', ns) if kinds else 'true'}")
        out.append(f"unfolding {ctor}_with")
        out.append(f"{call(lemma, (['q'] if kinds else []) + ns)} = refl\n")
    out.append(f"pub ruleset here_steps = ({', '.join(r for r in rules if '_with-here' in r)})\n\npub ruleset compare_steps = ({', '.join(r for r in rules if '_with-here' not in r)})\n")
    # other forms of the program's values
    rules = []
    for code, variant, ctor, kinds, ns in all_ctors():
        if code == 'L' or len(TYPES[code][3]) == 1:
            continue
        rust, tree, fn, variants = TYPES[code]
        lemma = f"{ctor}_with-else"
        rules.append(lemma)
        types, args = [], []
        for k, n in zip(kinds, ns):
            c = core(k)
            if c == 'L':
                types.append(f"({n} : List FieldTerm)")
            elif boxed(k):
                types.append(f"({n} : Box {TYPES[c][0]} Global)")
            elif is_part(k):
                types.append(f"({n} : {TYPES[c][0]})")
            else:
                types.append(f"({n} : {tree_of(k)})")
        arrow = (' '.join(types) + ' → ') if types else ''
        q = f"(q : {with_sig(kinds)}) " if kinds else ''
        out.append(f"pub {lemma} : {q}(r : {rust}) → ({arrow}r ≡ {apply(LETTER[code] + '.' + variant, ns)} → ⊥) → {ctor}_with {'q ' if kinds else ''}({fn}_tree r) ≡ false")
        out.append(f"unfolding {ctor}_with {fn}_tree")
        for v2, c2, k2 in variants:
            primed = any(boxed(k) or core(k) == 'L' for k in k2)
            words, pointers, rebuilt = [], iter('ijl'), []
            for k, n in zip(k2, names(k2)):
                c = core(k)
                if c == 'L':
                    words += ['shape', n]
                elif boxed(k):
                    ptr = next(pointers)
                    words += [ptr, n]
                    rebuilt.append(f"record {{ ptr = {ptr}.ptr; alloc = {ptr}.alloc; value = {n} }}")
                else:
                    words.append(n)
                    rebuilt.append(n)
            pat = apply(f"{LETTER[code]}.{v2}" + ("'" if primed else ''), words)
            if v2 == variant:
                if any(core(k) == 'L' for k in k2):
                    rest = [n for k, n in zip(k2, names(k2)) if core(k) != 'L']
                    row = '(shown-the_row-FieldTerm-0 shape fs)'
                    whole = call(f"{LETTER[code]}.{v2}'", ['shape', 'fs'] + rest)
                    out.append(f"{lemma} {'q ' if kinds else ''}{pat} n = absurd (n {' '.join([row] + rest)} (sym (roll-out-Formula ({whole})) ∙ ap roll-Formula (outs-{v2}' {' '.join(['shape', 'fs'] + rest)}) ∙ rolls-{v2} {' '.join([row] + rest)}))")
                else:
                    out.append(f"{lemma} {'q ' if kinds else ''}{pat} n = absurd (n {' '.join('(' + r + ')' if ' ' in r else r for r in rebuilt)} refl)" if rebuilt else f"{lemma} {'q ' if kinds else ''}{pat} n = absurd (n refl)")
            else:
                out.append(f"{lemma} {'q ' if kinds else ''}{pat} n = refl")
        out.append('')
    out.append(f"pub ruleset other_steps = ({', '.join(rules)})")
    return '\n'.join(out) + '\n'


def decides_file():
    """The test decides the relation where its rule decides what may be exchanged."""
    out = [f"""-- The test decides the relation.
use Rattle.std.proofs.Common.{{◌≡◌, refl, sym, ap, ◌∙◌, subst, ℕ, ℤ, Bool, true, false, ◌&&◌, ◌||◌, nat_eq}}
use Rattle.std.proofs.lemmas.Bool.{{true≢false, eqb-true, eq-eqb}}
use Rattle.jh_form.proofs.ClosedLemmas.{{both-left, both-right}}
use Rattle.jh_form.proofs.Names.{{name_equal-same, name_equal-true}}
use Rattle.jh_boxed_operations.proofs.comparison.MarkLemmas.{{mark_equal-same, mark_equal-true, int_eq-same, int_eq-true}}
{HEAD}use Rattle.jh_boxed_operations.specs.comparison.Compared.{{{with_names()}, {related_names()}, seen, by_labels}}
use Rattle.jh_boxed_operations.specs.comparison.Related.{{{', '.join(REL[c] for c in ORDER + 'L')}}}
use Rattle.jh_boxed_operations.specs.comparison.Related as r

-- a passed test is of a tree of that form"""]
    for code, variant, ctor, kinds, ns in all_ctors():
        tree = tree_type(code)
        lone = code != 'L' and len(TYPES[code][3]) == 1
        if kinds:
            sig = ' '.join(f"({n} : {tree_of(k)})" for k, n in zip(kinds, ns))
            out.append(f"pub {ctor}_with-inv : (q : {with_sig(kinds)}) (P : {tree} → Type 0) → ({sig} → {call('q', ns)} ≡ true → P {apply('t.' + ctor, ns)}) → (s : {tree}) → {ctor}_with q s ≡ true → P s")
            out.append(f"unfolding {ctor}_with")
            out.append(f"{ctor}_with-inv q P go {apply('t.' + ctor, ns)} h = go {' '.join(ns)} h")
            if not lone:
                out.append(f"{ctor}_with-inv q P go _ h = absurd (true≢false (sym h))")
        else:
            out.append(f"pub {ctor}_with-inv : (P : {tree} → Type 0) → P t.{ctor} → (s : {tree}) → {ctor}_with s ≡ true → P s")
            out.append(f"unfolding {ctor}_with")
            out.append(f"{ctor}_with-inv P go t.{ctor} h = go")
            out.append(f"{ctor}_with-inv P go _ h = absurd (true≢false (sym h))")
        out.append('')
    out.append("""either : (a b : Bool) (P : Type 0) → (a ≡ true → P) → (b ≡ true → P) → (a || b) ≡ true → P
either true b P f g h = f refl
either false b P f g h = g h

pub or-left : (a b : Bool) → a ≡ true → (a || b) ≡ true
or-left a b h = ap (λ c. c || b) h

pub or-right : (a b : Bool) → b ≡ true → (a || b) ≡ true
or-right true b h = refl
or-right false b h = h

pub both : (a b : Bool) → a ≡ true → b ≡ true → (a && b) ≡ true
both true b h k = k
both false b h k = h

module _ (p : ValueTree → ValueTree → Bool) (X : ValueTree → ValueTree → Type 0) (sound : (u v : ValueTree) → p u v ≡ true → X u v) where
  mutual
    unfolding """ + related_names().replace(',', ''))
    for code in ORDER + 'L':
        f = f"{fn_of(code)}-related"
        out.append(f"    pub {f} : (a s : {tree_type(code)}) → related_{fn_of(code)} a true p s ≡ true → {REL[code]} X a s")
        for c, variant, ctor, kinds, ns in all_ctors():
            if c != code:
                continue
            tests, ms = part_test(kinds, ns, 'true')
            whole = apply('t.' + ctor, ns)
            # the hypotheses on the parts from one on their conjunction
            hyps, hyp, left = [], 'e', list(tests)
            while len(left) > 1:
                last = left.pop()
                joined = ' && '.join(left)
                hyps.insert(0, f"(both-right ({joined}) ({last}) {hyp})")
                hyp = f"(both-left ({joined}) ({last}) {hyp})"
            hyps.insert(0, hyp)
            if not kinds:
                inner = f"{ctor}_with-inv (λ s. {REL[code]} X {whole} s) r.{ctor} s h2"
            else:
                prems, eqs = [], []
                for k, n, m, hy in zip(kinds, ns, ms, hyps):
                    if is_part(k):
                        prems.append(f"({fn_of(core(k))}-related {n} {m} {hy})")
                    else:
                        eqs.append((k, n, m, hy))
                rarg = []
                for k, n, m in zip(kinds, ns, ms):
                    rarg += [n, m] if is_part(k) else [n]
                ctor_term = call(f"r.{ctor}", rarg + prems)
                if eqs:
                    k, n, m, hy = eqs[0]
                    fact = {'u': f"eqb-true {n} {m} {hy}", 'n': f"name_equal-true {n} {m} {hy}", 'z': f"int_eq-true {n} {m} {hy}", 'k': f"mark_equal-true {n} {m} {hy}"}[core(k)]
                    target = apply('t.' + ctor, ['z0' if not is_part(kk) else mm for kk, mm in zip(kinds, ms)])
                    ctor_term = f"subst (λ (z0 : {tree_of(k)}). {REL[code]} X {whole} {target}) ({fact}) ({ctor_term})"
                inner = f"{ctor}_with-inv (λ {' '.join(ms)}. {' && '.join(tests)}) (λ s. {REL[code]} X {whole} s) (λ {' '.join(ms)} e. {ctor_term}) s h2"
            if code in ('V', 'L'):
                out.append(f"    {f} {whole} s h2 = {inner}")
            else:
                rest = f"{ctor}_with s" if not kinds else f"{ctor}_with (λ {' '.join(ms)}. {' && '.join(tests)}) s"
                out.append(f"    {f} {whole} s h = either (p (t.{WRAP[code]} {whole}) (t.{WRAP[code]} s)) ({rest}) ({REL[code]} X {whole} s) (λ e. r.{fn_of(code)}_here {whole} s (sound (t.{WRAP[code]} {whole}) (t.{WRAP[code]} s) e)) (λ h2. {inner}) h")
        out.append('')
    out.append("""module _ (p : ValueTree → ValueTree → Bool) (X : ValueTree → ValueTree → Type 0) (complete : (u v : ValueTree) → X u v → p u v ≡ true) where
  here_lemma : (u v : ValueTree) (b : Bool) → X u v → (p u v || b) ≡ true
  here_lemma u v b x = or-left (p u v) b (complete u v x)
""")
    # a node that is exchanged passes whatever it is: by cases, since the test computes at a constructor alone
    for code in ORDER:
        if code == 'V':
            continue
        fn = fn_of(code)
        out.append(f"  pub {fn}_here-passes : (w : Bool) (a s : {tree_type(code)}) → X (t.{WRAP[code]} a) (t.{WRAP[code]} s) → related_{fn} a w p s ≡ true")
        out.append(f"  unfolding related_{fn}")
        for c, variant, ctor, kinds, ns in all_ctors():
            if c != code:
                continue
            rest = test_case(code, ctor, kinds, ns).split(' || ', 1)[1]
            whole = apply('t.' + ctor, ns)
            out.append(f"  {fn}_here-passes w {whole} s here = here_lemma (t.{WRAP[code]} {whole}) (t.{WRAP[code]} s) ({rest}) here")
        out.append('')
    out.append("  mutual\n    unfolding " + related_names().replace(',', '') + ' ' + ' '.join(f"{ctor}_with" for _, _, ctor, _, _ in all_ctors()))
    for code in ORDER + 'L':
        f = f"{fn_of(code)}-passes"
        out.append(f"    pub {f} : (a s : {tree_type(code)}) → {REL[code]} X a s → related_{fn_of(code)} a true p s ≡ true")
        if code not in ('V', 'L'):
            out.append(f"    {f} _ _ (r.{fn_of(code)}_here a s x) = {fn_of(code)}_here-passes true a s x")
        for c, variant, ctor, kinds, ns in all_ctors():
            if c != code:
                continue
            ms = [n + "'" if is_part(k) else n for k, n in zip(kinds, ns)]
            args, prems, facts, tests = [], [], [], []
            for idx, (k, n, m) in enumerate(zip(kinds, ns, ms)):
                if is_part(k):
                    args += [n, m]
                    prems.append(f"h{idx}")
                    facts.append(f"({fn_of(core(k))}-passes {n} {m} h{idx})")
                    tests.append(f"related_{fn_of(core(k))} {n} true p {m}")
                else:
                    args.append(n)
                    facts.append({'u': f"(eq-eqb {n} {n} refl)", 'n': f"(name_equal-same {n} {n} refl)", 'z': f"(int_eq-same {n})", 'k': f"(mark_equal-same {n} {n} refl)"}[core(k)])
                    tests.append(f"{EQUAL[core(k)]} {n} {n}")
            if not kinds:
                proof = 'refl'
                rest = 'true'
            else:
                proof, joined = facts[0], tests[0]
                for fa, te in zip(facts[1:], tests[1:]):
                    proof = f"(both ({joined}) ({te}) {proof} {fa})"
                    joined = f"{joined} && {te}"
                rest = joined
            pat = apply(f"r.{ctor}", args + prems)
            if code in ('V', 'L'):
                out.append(f"    {f} _ _ {pat} = {proof}")
            else:
                one = f"t.{WRAP[code]} {apply('t.' + ctor, ns)}"
                two = f"t.{WRAP[code]} {apply('t.' + ctor, ms)}"
                out.append(f"    {f} _ _ {pat} = or-right (p ({one}) ({two})) ({rest}) {proof}")
        out.append('')
    # equality
    out.append("-- nothing may be exchanged\nabbrev pub never : ValueTree → ValueTree → Type 0\nnever u v = ⊥\n\nmutual")
    for code in ORDER + 'L':
        f = f"{fn_of(code)}-equal"
        out.append(f"  pub {f} : (a s : {tree_type(code)}) → {REL[code]} never a s → a ≡ s")
        if code not in ('V', 'L'):
            out.append(f"  {f} _ _ (r.{fn_of(code)}_here a s x) = absurd x")
        for c, variant, ctor, kinds, ns in all_ctors():
            if c != code:
                continue
            ms = [n + "'" if is_part(k) else n for k, n in zip(kinds, ns)]
            args, prems, words = [], [], []
            for idx, (k, n, m) in enumerate(zip(kinds, ns, ms)):
                if is_part(k):
                    args += [n, m]
                    prems.append(f"h{idx}")
                    words.append(f"({fn_of(core(k))}-equal {n} {m} h{idx} i)")
                else:
                    args.append(n)
                    words.append(n)
            pat = apply(f"r.{ctor}", args + prems)
            out.append(f"  {f} _ _ {pat} = " + (f"λ i. {call('t.' + ctor, words)}" if prems else 'refl'))
        out.append('')
    out.append("module _ (X : ValueTree → ValueTree → Type 0) where\n  mutual")
    for code in ORDER + 'L':
        f = f"{fn_of(code)}-itself"
        out.append(f"    pub {f} : (a : {tree_type(code)}) → {REL[code]} X a a")
        for c, variant, ctor, kinds, ns in all_ctors():
            if c != code:
                continue
            args, prems = [], []
            for k, n in zip(kinds, ns):
                if is_part(k):
                    args += [n, n]
                    prems.append(f"({fn_of(core(k))}-itself {n})")
                else:
                    args.append(n)
            out.append(f"    {f} {apply('t.' + ctor, ns)} = {call('r.' + ctor, args + prems)}")
        out.append('')
    return '\n'.join(out)


PARAM = {'T': 'term', 'I': 'int', 'S': 'set', 'F': 'field', 'V': 'value', 'P': 'formula', 'L': 'fields'}
ASK = {'T': 'terms', 'I': 'ints', 'S': 'sets', 'F': 'fields', 'P': 'formulas'}
RUSTEQ = {'u': '*{} == *{}', 'n': 'names_are_one({}, {})', 'z': 'numbers_are_one({}, {})', 'k': 'marks_are_one({}, {})'}


def compare_arm(code, variant, ctor, kinds):
    rust = TYPES[code][0]
    nice = {'x': 'name', 'z': 'number', 'fs': 'fields'}
    ns = []
    for k, n in zip(kinds, names(kinds)):
        ns.append('number' if core(k) == 'u' else 'mark' if core(k) == 'k' else nice.get(n, n))
    ms = ['other_' + n for n in ns]
    pat = f"{rust}::{variant}" + (f"({', '.join(ns)})" if ns else '')
    opat = f"{rust}::{variant}" + (f"({', '.join(ms)})" if ms else '')
    tests = []
    for k, n, m in zip(kinds, ns, ms):
        c = core(k)
        if c == 'L':
            tests.append(f"related_fields({n}.items(), {m}.items(), exchange)")
        elif is_part(k):
            tests.append(f"related_{fn_of(c)}({n}, {m}, exchange)")
        else:
            tests.append(RUSTEQ[c].format(n, m))
    good = ' && '.join(tests) if tests else 'true'
    seen = 'seen' if code == 'P' else 'right'
    if ctor == 'mark':
        return f"        {pat} if exchange.labels() => match seen {{\n            {opat} => {good},\n            _ => false,\n        }},\n        {rust}::Mark(_, a) => related_formula(a, seen, exchange),\n"
    return f"        {pat} => match {seen} {{\n            {opat} => {good},\n            _ => false,\n        }},\n"


def comparing():
    out = ["""#![tactic(auto, using(jh_form::proofs::Steps::tree_steps, crate::proofs::comparison::CompareSteps::here_steps, crate::proofs::comparison::CompareSteps::compare_steps, crate::proofs::comparison::CompareSteps::other_steps))]

ghost use Rattle.std.specs.Prelude.{◌≡◌};
ghost use Rattle.jh_form.specs.Bare.{term_tree, int_tree, set_tree, field_tree, value_tree, formula_tree, list_tree};
ghost use Rattle.jh_boxed_operations.specs.comparison.Compared.{seen, related_term, related_int, related_set, related_field, related_value, related_formula, related_fields};

use crate::comparison::exchange::Exchange;
use crate::comparison::marks::{marks_are_one, past_marks};
use crate::comparison::numbers::numbers_are_one;
use crate::substitution::names_are_one;
use jh_form::{FieldTerm, Formula, IntTerm, SetTerm, Term, Value};

/// A formula as it is compared: with its labels, or past them.
fn seen_of(formula: &Formula, labels: bool) -> &Formula
    ensures { formula_tree result.now ≡ seen labels (formula_tree formula.now) }
{
    if labels { formula } else { past_marks(formula) }
}
"""]
    for code in ORDER:
        rust, tree, fn, variants = TYPES[code]
        first = '' if code == 'V' else f"    if exchange.{ASK[code]}(left, right) {{\n        return true;\n    }}\n"
        if code == 'P':
            first += "    let seen = seen_of(right, exchange.labels());\n"
        out.append(f"""
#[cycle(related)]
pub fn related_{fn}<E: Exchange>(left: &{rust}, right: &{rust}, exchange: &E) -> bool
    ensures {{ result ≡ related_{fn} ({fn}_tree left.now) (E.labels exchange.now) (E.pairs exchange.now) ({fn}_tree right.now) }}
{{
{first}    match left {{
""" + ''.join(compare_arm(code, v, ctor, kinds) for v, ctor, kinds in variants) + "    }\n}\n")
    out.append("""
#[cycle(related)]
pub fn related_fields<E: Exchange>(left: &[FieldTerm], right: &[FieldTerm], exchange: &E) -> bool
    ensures { result ≡ related_fields (list_tree left.now) (E.labels exchange.now) (E.pairs exchange.now) (list_tree right.now) }
{
    if left.len() != right.len() {
        return false;
    }
    for place in 0..left.len() {
        if !related_field(&left[place], &right[place], exchange) {
            return false;
        }
    }
    true
}
""")
    return ''.join(out)


UNM = {'L': 'fields'}


def unm(c):
    return f"unmarked_{fn_of(c)}"


def unmarked_file():
    out = [f"""-- Trees without labels.
use Rattle.jh_form.specs.Tree.{{{TREES}}}
use Rattle.jh_form.specs.Tree as t

-- the tree with the label of each part taken off
unfoldable mutual"""]
    for code in ORDER + 'L':
        f = unm(code)
        out.append(f"  pub {f} : {tree_type(code)} → {tree_type(code)}")
        for c, variant, ctor, kinds, ns in all_ctors():
            if c != code:
                continue
            if ctor == 'mark':
                out.append(f"  {f} (t.mark k a) = {f} a")
            else:
                out.append(f"  {f} {apply('t.' + ctor, ns)} = {call('t.' + ctor, [f'({unm(core(k))} {n})' if is_part(k) else n for k, n in zip(kinds, ns)])}")
        out.append('')
    return '\n'.join(out)


def past_steps():
    out = [f"""-- Comparing past labels is comparing the trees without labels.
use Rattle.std.proofs.Common.{{◌≡◌, refl, sym, ap, ◌∙◌, ℕ, ℤ, Bool, true, false, ◌&&◌, nat_eq}}
{HEAD}use Rattle.jh_form.specs.declared.form.Formula.{{Formula}}
use Rattle.jh_form.specs.declared.form.Formula.TheVariants as formula
use Rattle.std.specs.declared.boxed.Box.{{Box}}
use Rattle.std.specs.declared.alloc.Global.{{Global}}
use Rattle.jh_form.specs.Bare.{{formula_tree}}
use Rattle.jh_boxed_operations.specs.comparison.Compared.{{{with_names()}, {related_names()}, past}}
use Rattle.jh_boxed_operations.specs.comparison.Exchanged.{{nothing}}
use Rattle.jh_boxed_operations.specs.comparison.Unmarked.{{{', '.join(unm(c) for c in ORDER + 'L')}}}
"""]
    out.append("""pub past-mark : (k : Mark) (a : FormulaTree) → past (t.mark k a) ≡ past a
unfolding past
past-mark k a = refl

pub past-else : (r : Formula) → ((k : Mark) (a : Box Formula Global) → r ≡ formula.Mark k a → ⊥) → past (formula_tree r) ≡ formula_tree r
unfolding past formula_tree""")
    for v2, c2, k2 in TYPES['P'][3]:
        primed = any(boxed(k) or core(k) == 'L' for k in k2)
        words, pointers = [], iter('ijl')
        for k, n in zip(k2, names(k2)):
            if core(k) == 'L':
                words += ['shape', n]
            elif boxed(k):
                words += [next(pointers), n]
            else:
                words.append(n)
        pat = apply(f"formula.{v2}" + ("'" if primed else ''), words)
        if c2 == 'mark':
            out.append(f"past-else {pat} n = absurd (n k (record {{ ptr = i.ptr; alloc = i.alloc; value = a }}) refl)")
        else:
            out.append(f"past-else {pat} n = refl")
    out.append("\npub ruleset past_steps = (past-mark, past-else)\n")
    # with at the unmarked tree
    for code, variant, ctor, kinds, ns in all_ctors():
        if ctor == 'mark':
            continue
        lone = code != 'L' and len(TYPES[code][3]) == 1
        target = '(past s)' if code == 'P' else 's'
        un = unm(code)
        f = f"{ctor}_with"
        lemma = f"{f}-unmarked"
        if kinds:
            sig = ' '.join(f"({n} : {tree_of(k)})" for k, n in zip(kinds, ns))
            right = call("r", [f"({unm(core(k))} {n})" if is_part(k) else n for k, n in zip(kinds, ns)])
            out.append(f"{lemma} : (q r : {with_sig(kinds)}) → ({sig} → {call('q', ns)} ≡ {right}) → (s : {tree_type(code)}) → {f} q {target} ≡ {f} r ({un} s)")
            out.append(f"unfolding {f} {un} past")
            if code == 'P':
                out.append(f"{lemma} q r h (t.mark k s) = {lemma} q r h s")
            out.append(f"{lemma} q r h {apply('t.' + ctor, ns)} = h {' '.join(ns)}")
            for c2, v2, ct2, k2, n2 in all_ctors():
                if c2 == code and ct2 not in (ctor, 'mark'):
                    out.append(f"{lemma} q r h {apply('t.' + ct2, n2)} = refl")
        else:
            out.append(f"{lemma} : (s : {tree_type(code)}) → {f} {target} ≡ {f} ({un} s)")
            out.append(f"unfolding {f} {un} past")
            if code == 'P':
                out.append(f"{lemma} (t.mark k s) = {lemma} s")
            for c2, v2, ct2, k2, n2 in all_ctors():
                if c2 == code and ct2 != 'mark':
                    out.append(f"{lemma} {apply('t.' + ct2, n2)} = refl")
        out.append('')
    out.append("unmarked-past : (a : FormulaTree) → unmarked_formula (past a) ≡ unmarked_formula a\nunfolding past unmarked_formula")
    for code, variant, ctor, kinds, ns in all_ctors():
        if code == 'P':
            out.append("unmarked-past (t.mark k a) = unmarked-past a" if ctor == 'mark' else f"unmarked-past {apply('t.' + ctor, ns)} = refl")
    out.append("\nmutual\n  unfolding " + ' '.join([f"related_{fn_of(c)}" for c in ORDER + 'L'] + [unm(c) for c in ORDER + 'L']))
    for code in ORDER + 'L':
        f = f"{fn_of(code)}-past"
        out.append(f"  pub {f} : (a s : {tree_type(code)}) → related_{fn_of(code)} a false nothing s ≡ related_{fn_of(code)} ({unm(code)} a) true nothing ({unm(code)} s)")
        for c, variant, ctor, kinds, ns in all_ctors():
            if c != code:
                continue
            if ctor == 'mark':
                out.append(f"  {f} (t.mark k a) s = {f} a (past s) ∙ ap (λ z. related_formula (unmarked_formula a) true nothing z) (unmarked-past s)")
                continue
            ms = others(ns)
            one = [f"related_{fn_of(core(k))} {n} false nothing {m}" if is_part(k) else f"{EQUAL[core(k)]} {n} {m}" for k, n, m in zip(kinds, ns, ms)]
            two = [f"related_{fn_of(core(k))} ({unm(core(k))} {n}) true nothing {m}" if is_part(k) else f"{EQUAL[core(k)]} {n} {m}" for k, n, m in zip(kinds, ns, ms)]
            go = [f"{fn_of(core(k))}-past {n} {m} i" if is_part(k) else f"{EQUAL[core(k)]} {n} {m}" for k, n, m in zip(kinds, ns, ms)]
            lam = ' '.join(ms)
            if kinds:
                out.append(f"  {f} {apply('t.' + ctor, ns)} s = {ctor}_with-unmarked (λ {lam}. {' && '.join(one)}) (λ {lam}. {' && '.join(two)}) (λ {lam}. λ i. {' && '.join(go)}) s")
            else:
                out.append(f"  {f} t.{ctor} s = {ctor}_with-unmarked s")
        out.append('')
    return '\n'.join(out)


# what a tree with exchanged parts means, where the parts of a constructor do not all mean the very same
SAME_SETS = {
    'union': 'λ y lt i. {a} || {b}', 'inter': 'λ y lt i. {a} && {b}', 'diff': 'λ y lt i. {a} && not ({b})', 'compl': 'λ y lt i. not ({a})',
}


def exchange_meanings():
    from forms import MEANING, VALUE
    out = [f"""-- Exchanging parts for others of the same meaning keeps the meaning.
use Rattle.std.proofs.Common.{{◌≡◌, refl, sym, ap, subst, ◌∙◌, ℕ, zero, suc, ◌<◌, ◌==◌, not, ◌&&◌, ◌||◌, List, [], ◌∷◌, slice_index, pos, ◌+ℤ◌, ◌-ℤ◌, ◌*ℤ◌, neg_ℤ, int_lt, int_le, arith}}
{HEAD.replace("use Rattle.jh_form.specs.Passing.{name_equal}" + chr(10) + "use Rattle.jh_boxed_operations.specs.comparison.Marks.{mark_equal}" + chr(10), "")}use Rattle.jh_form.specs.Meaning.{{Datum, Interp, InUniverse, every, some, agree, divides_number, reaches, {', '.join(VALUE[c] for c in ORDER + 'L')}}}
use Rattle.jh_form.proofs.Universes.{{term_inside}}
use Rattle.jh_form.proofs.ClosedLemmas.{{datum-closed}}
use Rattle.jh_boxed_operations.specs.comparison.Related.{{{', '.join(REL[c] for c in ORDER + 'L')}}}
use Rattle.jh_boxed_operations.specs.comparison.Related as r
use Rattle.jh_boxed_operations.specs.comparison.Exchanged.{{ExchangeKeepsMeaning}}
use Rattle.jh_boxed_operations.specs.comparison.Inside.{{SameMembers, SameFields, SameIn, AreInside}}
use Rattle.jh_boxed_operations.proofs.comparison.Insides.{{AllSame, fields-same, updated-same, count-same, every-same, some-same, reaches-same, forest-same}}

-- one more object of the universe
inside-more : (n x : ℕ) (e : List ℕ) → x < suc n → AreInside n e → AreInside n (x ∷ e)
inside-more n x e lt w zero = lt
inside-more n x e lt w (suc k) = w k

module _ (X : ValueTree → ValueTree → Type 0) (m : Interp) (universe : InUniverse m)
    (keeps : (u v : ValueTree) → X u v → (e : List ℕ) → AreInside m.last e → SameIn m.last (datum u m e) (datum v m e)) where
  mutual"""]
    means = {
        'T': 'term_value a m e ≡ term_value b m e', 'I': 'int_value a m e ≡ int_value b m e', 'P': 'truth a m e ≡ truth b m e',
        'S': 'SameMembers m.last (set_value a m e) (set_value b m e)', 'F': 'SameFields m.last (field_value a m e) (field_value b m e)',
        'V': 'SameIn m.last (datum a m e) (datum b m e)', 'L': 'AllSame m.last (fields_value a m e) (fields_value b m e)',
    }

    def proof(code, ctor, kinds, ns, ms, hyp):
        """The proof in one case: rel(n) is that of the part n, of(n) and at(n) its value on both sides."""
        parts = {n: (core(k), q) for k, n, q in zip(kinds, ns, ms) if is_part(k)}

        def rel(n):
            c, q = parts[n]
            return f"{VALUE[c]}-related {n} {q} {hyp[n]} e w"

        def deep(n, x):
            c, q = parts[n]
            return f"{VALUE[c]}-related {n} {q} {hyp[n]} ({x} ∷ e) (inside-more m.last {x} e lt w)"
        if ctor in ('of_object', 'of_number', 'of_truth', 'of_set', 'of_field', 'mark'):
            return rel('a')
        if ctor in ('read_object', 'read_number', 'read_truth'):
            return f"λ i. ({rel('a')}).{ {'T': 'objects', 'I': 'numbers', 'P': 'truths'}[code]} i ({rel('b')} i)"
        if ctor == 'read_set':
            return f"λ y lt. ({rel('a')}).sets (term_value b m e) y lt ∙ (λ i. (field_value a' m e).sets ({rel('b')} i) y)"
        if ctor == 'card':
            return f"ap pos (count-same m.last (set_value a m e) (set_value a' m e) ({rel('a')}))"
        if ctor == 'single':
            return f"λ y lt i. y == {rel('a')} i"
        if ctor in SAME_SETS:
            return SAME_SETS[ctor].replace('{a}', f"({rel('a')} y lt i)").replace('{b}', f"({rel('b')} y lt i)" if 'b' in parts else '')
        if ctor == 'compr':
            return f"λ y lt. {deep('a', 'y')}"
        if ctor == 'update':
            return f"updated-same m.last (field_value a m e) (field_value a' m e) (term_value b m e) (term_value b' m e) (datum c m e) (datum c' m e) ({rel('a')}) ({rel('b')}) ({rel('c')})"
        if ctor in ('all', 'ex'):
            every = 'every' if ctor == 'all' else 'some'
            return f"{every}-same m.last (λ x. truth a m (x ∷ e)) (λ x. truth a' m (x ∷ e)) (λ x lt. {deep('a', 'x')})"
        if ctor in ('eq_set', 'subset'):
            test = 'agree ({} x) ({} x)' if ctor == 'eq_set' else 'not ({} x) || {} x'
            both = [test.format(f"set_value a{p} m e", f"set_value b{p} m e") for p in ('', "'")]
            step = f"agree ({rel('a')} x lt i) ({rel('b')} x lt i)" if ctor == 'eq_set' else f"not ({rel('a')} x lt i) || {rel('b')} x lt i"
            return f"every-same m.last (λ x. {both[0]}) (λ x. {both[1]}) (λ x lt i. {step})"
        if ctor == 'member':
            return f"{rel('b')} (term_value a m e) (term_inside m universe e w a) ∙ ap (set_value b' m e) ({rel('a')})"
        if ctor == 'reach':
            return f"reaches-same m.last (fields_value fs m e) (fields_value fs' m e) ({rel('fs')}) (term_value a m e) (term_value b m e) ∙ (λ i. reaches m.last (fields_value fs' m e) ({rel('a')} i) ({rel('b')} i))"
        if ctor == 'tree':
            return f"forest-same m.last (fields_value fs m e) (fields_value fs' m e) ({rel('fs')})"
        if ctor == 'more':
            return f"({rel('f')}, {rel('fs')})"
        text = MEANING[ctor]
        for n in parts:
            text = text.replace('{' + n + '}', f"{rel(n)} i")
        return f"λ i. {text}"

    for code in ORDER + 'L':
        f = f"{VALUE[code]}-related"
        out.append(f"    pub {f} : (a b : {tree_type(code)}) → {REL[code]} X a b → (e : List ℕ) → AreInside m.last e → {means[code]}")
        if code not in ('V', 'L'):
            out.append(f"    {f} _ _ (r.{fn_of(code)}_here a b x) e w = keeps (t.{WRAP[code]} a) (t.{WRAP[code]} b) x e w")
        for c, variant, ctor, kinds, ns in all_ctors():
            if c != code:
                continue
            ms = [n + "'" if is_part(k) else n for k, n in zip(kinds, ns)]
            args, prems, hyp = [], [], {}
            for idx, (k, n, q) in enumerate(zip(kinds, ns, ms)):
                if is_part(k):
                    args += [n, q]
                    hyp[n] = f"h{idx}"
                    prems.append(f"h{idx}")
                else:
                    args.append(n)
            pat = apply(f"r.{ctor}", args + prems)
            if not prems:
                nothing = {'S': 'λ y lt. refl', 'L': 'tt', 'F': 'fields-same m.last (m.field x)'}.get(code, 'refl')
                out.append(f"    {f} _ _ {pat} e w = {nothing}")
                continue
            out.append(f"    {f} _ _ {pat} e w = {proof(code, ctor, kinds, ns, ms, hyp)}")
        out.append('')
    out.append("""pub exchange-keeps : ExchangeKeepsMeaning
exchange-keeps a b old new x closed closed' m universe same e inside =
    truth-related (λ u v. (u ≡ old) × (v ≡ new)) m universe
    (λ u v p g w.
    let left : datum old m [] ≡ datum u m g = datum-closed old m 0 [] g (λ k lt. absurd (omega arith)) closed ∙ ap (λ z. datum z m g) (sym p.0) in
    let right : datum new m [] ≡ datum v m g = datum-closed new m 0 [] g (λ k lt. absurd (omega arith)) closed' ∙ ap (λ z. datum z m g) (sym p.1) in
    subst (λ (d : Datum). SameIn m.last d (datum v m g)) left (subst (λ (d : Datum). SameIn m.last (datum old m []) d) right same))
    a b x e inside
""")
    return '\n'.join(out)


if __name__ == '__main__':
    root = sys.argv[1]
    base = f'{root}/crates/jh_boxed_operations'
    open(f'{base}/specs/comparison/Related.antt', 'w').write(related_specs())
    open(f'{base}/specs/comparison/Compared.antt', 'w').write(tests_specs())
    open(f'{base}/proofs/comparison/CompareSteps.antt', 'w').write(steps_file())
    open(f'{base}/proofs/comparison/Decisions.antt', 'w').write(decides_file())
    open(f'{base}/src/comparison/comparing.rt', 'w').write(comparing())
    open(f'{base}/specs/comparison/Unmarked.antt', 'w').write(unmarked_file())
    open(f'{base}/proofs/comparison/PastSteps.antt', 'w').write(past_steps())
    open(f'{base}/proofs/comparison/ExchangeMeanings.antt', 'w').write(exchange_meanings())
