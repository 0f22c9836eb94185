"""Findings as one page of HTML that needs nothing else: the source with verdicts, and a panel for each finding."""
from html import escape

from .findings import hint_text, summary, title
from .text import printable
from .words import KINDS

STYLE = '''
:root { color-scheme: light dark; --bad: #b3261e; --open: #9a6700; --good: #1a7f37; --edge: #8883; --soft: #8881; }
@media (prefers-color-scheme: dark) { :root { --bad: #ff8a80; --open: #e3b341; --good: #56d364; } }
* { box-sizing: border-box; }
body { margin: 0; font: 15px/1.5 system-ui, sans-serif; }
header { padding: 1rem 1.5rem; border-bottom: 1px solid var(--edge); }
h1 { font-size: 1.2rem; margin: 0; overflow-wrap: anywhere; }
header p { margin: .2rem 0 0; }
main { display: grid; grid-template-columns: minmax(0, 3fr) minmax(18rem, 2fr); align-items: start; }
.source { overflow-x: auto; padding: 1rem 0; }
.panels { padding: 1rem; border-left: 1px solid var(--edge); position: sticky; top: 0; max-height: 100vh;
  overflow-y: auto; }
@media (max-width: 60rem) { main { display: block; } .panels { border-left: 0; position: static; max-height: none; } }
.line { display: flex; font: 13px/1.6 ui-monospace, monospace; white-space: pre; min-width: max-content; }
.line > b { flex: none; width: 3.5rem; padding-right: 1rem; text-align: right; font-weight: normal; opacity: .5; }
mark { color: inherit; background: none; border-bottom: 2px solid var(--good); }
mark.unproved { border-color: var(--open); background: color-mix(in srgb, var(--open) 15%, transparent); }
mark.refused { border-color: var(--bad); background: color-mix(in srgb, var(--bad) 15%, transparent); }
.verdicts { padding: 0 1rem 0 3.5rem; font-size: 12px; position: sticky; left: 0; }
.verdicts a { display: inline-block; margin: 0 .5rem .2rem 0; padding: 0 .5rem; border: 1px solid; border-radius: 1rem;
  text-decoration: none; color: var(--good); }
a.unproved, h2.unproved { color: var(--open) !important; }
a.refused, h2.refused { color: var(--bad) !important; }
section { margin: 0 0 .8rem; padding: .6rem .8rem; border: 1px solid var(--edge); border-radius: .5rem;
  background: var(--soft); }
section:target { outline: 2px solid; }
h2 { font-size: .95rem; margin: 0; color: var(--good); }
section p { margin: .3rem 0 0; overflow-wrap: anywhere; }
.hint { font-style: italic; }
'''


def html(findings):
    """The page."""
    body = f'<div class="source">{source(findings)}</div><div class="panels">{panels(findings)}</div>'
    told = findings.refused.causes[0] if findings.refused else f'{summary(findings)}. {findings.last}'
    name = escape(findings.shown)
    return (f'<!DOCTYPE html>\n<html lang="en"><head><meta charset="utf-8"><title>{name}</title>'
            '<meta name="viewport" content="width=device-width, initial-scale=1">'
            f'<style>{STYLE}</style></head>\n<body><header><h1>{name}</h1><p>{escape(told)}</p></header>\n'
            f'<main>{body}</main></body></html>\n')


def source(findings):
    """The lines of the source, each with the verdicts of what begins in it."""
    numbers = {id(it): number for number, it in enumerate(findings.all())}
    last = len(findings.source.lines) - (findings.source.lines[-1] == '')
    lines = []
    for number, text in enumerate(findings.source.lines[:last], 1):
        lines.append(f'<div class="line"><b>{number}</b><span>{marked(findings, number, text)}</span></div>')
        here = [it for it in findings.all() if it.line == number]
        if here:
            links = ''.join(f'<a class="{it.verdict}" href="#f{numbers[id(it)]}">{escape(short(it))}</a>'
                            for it in here)
            lines.append(f'<div class="verdicts">{links}</div>')
    return '\n'.join(lines)


def short(finding):
    return 'refused' if finding.verdict == 'refused' else title(finding)


def marked(findings, number, text):
    """A line with the ranges marked that lie in it. Of ranges that overlap the one with the worst verdict is marked."""
    start = findings.source.starts[number - 1]
    worst = {'refused': 0, 'unproved': 1}
    verdicts = [None] * len(text)
    for it in sorted(findings.all(), key=lambda it: -worst.get(it.verdict, 2)):
        for place in range(max(it.span.start, start), min(it.span.end, start + len(text))):
            verdicts[place - start] = it.verdict
    pieces, place = [], 0
    while place < len(text):
        end = place
        while end < len(text) and verdicts[end] == verdicts[place]:
            end += 1
        inside = escape(printable(text[place:end]))
        pieces.append(f'<mark class="{verdicts[place]}">{inside}</mark>' if verdicts[place] else inside)
        place = end
    return ''.join(pieces)


def panels(findings):
    """A panel for each finding, those first that are refused or not proved."""
    numbered = list(enumerate(findings.all()))
    numbered.sort(key=lambda it: it[1].verdict not in ('refused', 'unproved'))
    return '\n'.join(panel(findings, number, it) for number, it in numbered)


def panel(findings, number, it):
    what = KINDS.get(it.kind, '')
    formula = findings.source.formula(it.span)
    lines = [f'<h2 class="{it.verdict}">{escape(title(it))}</h2>',
             f'<p>line {it.line}, column {it.column}{": " if what else ""}{escape(what)}</p>']
    if formula:
        lines.append(f'<p><code>{escape(printable(formula))}</code></p>')
    lines += [f'<p>{escape(cause)}</p>' for cause in it.causes]
    if it.hint:
        lines.append(f'<p class="hint">{escape(hint_text(it))}</p>')
    return f'<section id="f{number}">{"".join(lines)}</section>'
