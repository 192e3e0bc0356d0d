#!/usr/bin/env python3
"""Counts the definitions that the contract of the top call rests on, and writes the numbers into docs/READING.md.

reading_list.py [--check]

Follows the imports of the definitions that the clauses of `dc_main` cite. Complains where the page leaves one of these files out or names another. With
--check nothing is written.
"""
import pathlib, re, sys

HERE = pathlib.Path(__file__).resolve().parent.parent
PAGE = HERE / 'docs/READING.md'
TOP = HERE / 'crates/dc_top/src/top.rt'


def spec_of(path):
    """The file of a path such as Rattle.dc_top.specs.Runs, where it is one of this repository's definitions."""
    parts = path.split('.')
    if len(parts) < 3 or parts[1] != 'specs' or parts[2] == 'declared':
        return None
    file = HERE / 'crates' / parts[0] / 'specs' / ('/'.join(parts[2:]) + '.antt')
    return file if file.exists() else None


def cited():
    """All files of definitions that the top call's contract leads to, and the texts of its outcomes."""
    found, left = set(), [HERE / 'crates/dc_top/specs/Outcomes.antt', *map(spec_of, re.findall(r'^ghost use Rattle\.([\w.]+)\.\{', TOP.read_text(), re.M))]
    while left:
        file = left.pop()
        if file and file not in found:
            found.add(file)
            left += map(spec_of, re.findall(r'^use Rattle\.([\w.]+?)(?:\.\{| as |$)', file.read_text(), re.M))
    return found


def lines_of(file):
    lines = map(str.strip, file.read_text().split('\n'))
    return sum(1 for line in lines if line and not line.startswith(('use ', '--')))


def main():
    named, wrong = [], []

    def counted(row):
        files = [HERE / 'crates' / crate / 'specs' / f'{file}.antt' for crate, names in re.findall(r'`([a-z_]+)`: ((?:`\w+`(?:, )?)+)', row[1]) for file in re.findall(r'`(\w+)`', names)]
        named.extend(files)
        return f'| {row[1]} | {sum(map(lines_of, files))} |'

    text = re.sub(r'^\| (`[a-z_]+`: [^|]*) \| [\d,]+ \|', counted, PAGE.read_text(), flags=re.M)
    wanted = cited()
    text = re.sub(r'All of it: [\d,]+ lines of definitions in [\d,]+ files', f'All of it: {sum(map(lines_of, wanted)):,} lines of definitions in {len(wanted)} files', text)
    wrong += [f'{file.relative_to(HERE)} is cited, and not on the page' for file in sorted(wanted - set(named))]
    wrong += [f'{file.relative_to(HERE)} is on the page, and not cited' for file in sorted(set(named) - wanted)]
    wrong += [f'{file.relative_to(HERE)} is on the page twice' for file in sorted({it for it in named if named.count(it) > 1})]
    for it in wrong:
        print(f'reading_list: {it}', file=sys.stderr)
    if '--check' not in sys.argv:
        PAGE.write_text(text)
    print(f'reading_list: {len(wanted)} files, {len(wrong)} wrong')
    return 1 if wrong else 0


sys.exit(main())
