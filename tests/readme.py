#!/usr/bin/env python3
"""Runs the examples of README.md through the program: the bench sheet, and each refusal whose example replaces a line of the sheet.

    tests/readme.py PROGRAM

The page shows tabs as spaces and has remarks behind the sheet's lines. Its last line is 'N passed, M failed'.
"""
import pathlib
import re
import subprocess
import sys

from results import told

ROOT = pathlib.Path(__file__).resolve().parent.parent


def blocks(page):
    return re.findall(r'(?ms)^```\n(.*?)^```$', page)


def sheet_lines(block):
    """The lines of the sheet as the page shows them, without the remarks, which stand behind three spaces or more."""
    return [re.split(r' {3,}', line)[0].rstrip().replace(' ', '\t') for line in block.splitlines()]


def printed(program, lines):
    text = ''.join(line + '\n' for line in lines)
    run = subprocess.run([program], input=text.encode(), stdout=subprocess.PIPE, check=True)
    return run.stdout.decode()


def examples(page):
    """Number, line and what it becomes, and what the page says is printed."""
    rows = re.findall(r'(?m)^\| (\d+) \|.*\| line (\d+) `([^`]*)` \| `([^`]*)` \|$', page)
    return [(int(no), int(line), becomes.replace(' ', '\t'), says.replace(' ', '\t') + '\n') for no, line, becomes, says in rows]


def main():
    program = sys.argv[1]
    page = (ROOT / 'README.md').read_text(encoding='utf-8')
    shown = blocks(page)
    sheet = sheet_lines(next(b for b in shown if b.startswith('design')))
    answer = next(b for b in shown if b.startswith('path')).replace(' ', '\t')
    stored = (ROOT / 'crates/toppaths/stdin').read_text(encoding='utf-8')
    shown_cases = examples(page)
    results = [
        ('the sheet of the page is the stored one', ''.join(line + '\n' for line in sheet) == stored),
        ('the sheet prints what the page shows', printed(program, sheet) == answer),
        ('each refusal that a text can show has an example', sorted({no for no, _, _, _ in shown_cases}) == [2, 3, 4, *range(6, 15)]),
    ]
    for no, line, becomes, says in shown_cases:
        changed = sheet[: line - 1] + [becomes] + sheet[line:]
        results.append((f'the example of refusal {no}', says.split('\t')[1] == str(no) and printed(program, changed) == says))
    return told(results)


if __name__ == '__main__':
    sys.exit(main())
