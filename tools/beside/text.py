"""Findings as text: the source with what was found under its lines, in the manner of rustc; and a line each."""
import json

from .findings import hint_text, summary, title

COLOURS = {
    'refused': '1;31', 'unproved': '1;33', 'trivial': '32', 'bapa': '32', 'local': '32', 'hint': '36', 'edge': '34',
}


class Paint:
    """Colours, where they are wanted."""

    def __init__(self, wanted):
        self.wanted = wanted

    def __call__(self, colour, text):
        return f'\033[{COLOURS[colour]}m{text}\033[0m' if self.wanted else text


def printable(text):
    return text.encode('utf-8', 'surrogateescape').decode('utf-8', 'replace').replace('\r', '')


def page(findings, colours):
    """The whole source with all findings under its lines."""
    paint = Paint(colours)
    lines = [paint('edge', f'--> {findings.shown}')]
    by_line = {}
    for it in findings.all():
        by_line.setdefault(it.line, {}).setdefault((it.span.start, it.span.end), []).append(it)
    width = len(str(len(findings.source.lines)))
    last = len(findings.source.lines) - (findings.source.lines[-1] == '')
    for number, text in enumerate(findings.source.lines[:last], 1):
        lines.append(paint('edge', f'{number:{width}} |') + f' {printable(text)}'.rstrip())
        for span in sorted(by_line.get(number, {})):
            lines += under(findings.source, number, span, by_line[number][span], ' ' * width, paint)
    lines += ending(findings)
    return '\n'.join(lines) + '\n'


def under(source, number, span, found, gutter, paint):
    """What stands under a line for a range: marks, and what was found there."""
    start = source.starts[number - 1]
    text = source.lines[number - 1]
    before = ''.join('\t' if it == '\t' else ' ' for it in text[:span[0] - start])
    length = max(1, min(span[1], start + len(text)) - span[0])
    edge = paint('edge', f'{gutter} |')
    worst = next((it for it in found if it.verdict in ('refused', 'unproved')), found[0])
    lines = [f'{edge} {before}{paint(worst.verdict, "^" + "~" * (length - 1))}']
    for told, verdict in grouped(found):
        lines.append(f'{edge} {before}{paint(verdict, told)}')
    for it in found:
        if it.hint:
            lines += detail(it, f'{edge} {before}', paint)
    return lines


def grouped(found):
    """A line for what is proved, one for those of a method that follow one another and are proved in one way."""
    groups = []
    for it in found:
        last = groups[-1][-1] if groups else None
        is_next = last and it.verdict not in ('unproved', 'refused') and it.number == last.number + 1 and \
            (it.name, it.kind, it.verdict) == (last.name, last.kind, last.verdict)
        groups[-1].append(it) if is_next else groups.append([it])
    for group in groups:
        if group[0].hint is None:
            one, other = group[0].number, group[-1].number
            numbers = f'{one}' if one == other else f'{one} to {other}'
            yield title(group[0]._replace(number=numbers)), group[0].verdict


def detail(finding, edge, paint):
    """What was found where it isn't proved or is refused, with the reason and the hint."""
    lines = [f'{edge}{paint(finding.verdict, title(finding))}']
    causes = finding.causes[:1] if finding.verdict == 'refused' else finding.causes
    lines += [f'{edge}  {it}' for it in causes]
    return lines + [f'{edge}  {paint("hint", "hint: " + hint_text(finding))}']


def ending(findings):
    """The last lines."""
    if findings.refused:
        return [findings.refused.causes[0]]
    return [summary(findings), findings.last]


def short(findings):
    """A line for each that is refused or not proved, as compilers print them."""
    lines = []
    for it in findings.open():
        kind = 'error' if it.verdict == 'refused' else 'warning'
        told = f'{it.causes[0]}: {title(it)}' if it.verdict == 'refused' else title(it)
        lines.append(f'{findings.shown}:{it.line}:{it.column}: {kind}: {told}; {hint_text(it)}\n')
    return ''.join(lines)


def as_json(findings):
    """A line of JSON for each finding."""
    return ''.join(json.dumps(entry(findings, it), ensure_ascii=False) + '\n' for it in findings.all())


def entry(findings, it):
    start, end = (findings.source.place(offset) for offset in it.span)
    places = {name: {'line': line, 'column': column} for name, (line, column) in (('start', start), ('end', end))}
    hint = it.hint and {'cookbook': it.hint[0], 'text': it.hint[1]}
    return {'file': findings.shown, 'method': it.name, 'number': it.number, 'kind': it.kind, 'range': places,
            'verdict': it.verdict, 'cause': it.causes, 'hint': hint}
