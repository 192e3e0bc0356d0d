#!/usr/bin/env python3
"""Checks that the pages say what stands.

check_pages.py

Every crate of crates.txt has a page and a row on the map, which names the crates that it stands on as crates.txt does, and every page of a crate is of
one that is listed. Each example on it is, line for line, in the file that is named above it. Each clause that a table of a crate's page names, or that
docs/PROVED.md names, is in that crate's code, and so is each call; those that the README names are in one. Each file that a page names is there, each link leads to a file, and each anchor to a
heading. Whether a clause says what the page says of it, a reader has to judge.
"""
import pathlib, re, sys

HERE = pathlib.Path(__file__).resolve().parent.parent
PAGES = [HERE / 'README.md', HERE / 'CHANGELOG.md', *sorted((HERE / 'docs').glob('*.md')), *sorted(HERE.glob('crates/*/README.md')), HERE / 'examples/README.md']
wrong = []


def complain(page, what):
    wrong.append(f'{page.relative_to(HERE)}: {what}')


def names_in(cell):
    """The names in backticks of a cell of a table."""
    return re.findall(r'`([^`]+)`', cell)


def code_of(crate):
    return '\n'.join(file.read_text() for file in sorted((HERE / 'crates' / crate / 'src').glob('*.rt')))


def cells_of(line):
    return [it.replace('\0', '|').strip() for it in line.replace('\\|', '\0').strip().strip('|').split('|')]


def tables_of(text):
    """The tables of a page: the heads of the columns, and the rows."""
    for block in re.findall(r'(?:^\|.*\n)+', text, re.M):
        rows = [cells_of(line) for line in block.strip().split('\n')]
        if len(rows) > 2:
            yield rows[0], rows[2:]


def check_clauses(page, crate, cell):
    for name in names_in(cell):
        if re.fullmatch(r'\w+', name) and not re.search(rf'\bensures {name} ', code_of(crate)):
            complain(page, f'no clause {name} stands in {crate}')


def check_calls(page, crate, cell):
    code = code_of(crate)
    for name in names_in(cell):
        word = name.split('::')[-1]
        if not re.search(rf'\b(fn|struct|enum|trait|impl|mod|use|pub use) [^;{{(]*\b{word}\b|\b{word}\b,', code):
            complain(page, f'{name} does not stand in {crate}')


def check_examples(page, text):
    """Each block of code behind a line that names files stands in them, but for its indentation."""
    for files, _, block in re.findall(r'\(((`[a-z_]+/[^`]+`(?:, )?)+)\):\n\n```\w*\n(.*?)\n```', text, re.S):
        missing = [file for file in names_in(files) if not (HERE / 'crates' / file).exists()]
        if missing:
            complain(page, f'its example is of {missing[0]}, which is not there')
            continue
        lines = [line.strip() for file in names_in(files) for line in (HERE / 'crates' / file).read_text().split('\n')]
        place = 0
        for line in filter(None, map(str.strip, block.split('\n'))):
            if line not in lines[place:]:
                complain(page, f'its example has a line that does not stand in {files}: {line}')
                break
            place = lines.index(line, place)


def check_sentences(page, text):
    """Where a sentence names a call and its clauses, as (`call`: `clause`, `clause`), a crate that has the call has them."""
    for calls, clauses in re.findall(r'[(;]\s*((?:`[\w:]+`(?:,\s+)?)+):\s+((?:`\w+`(?:,\s+)?)+)', text):
        for call in (it.split('::')[-1] for it in names_in(calls)):
            having = [code_of(it.name) for it in (HERE / 'crates').iterdir() if re.search(rf'\bfn {call}\b', code_of(it.name))]
            if not any(all(f'ensures {clause} ' in code for clause in names_in(clauses)) for code in having):
                complain(page, f'no crate has {call} with {clauses}')


def check_files(page, text):
    """Each file that is named in backticks is there: one of definitions in the crate that is named with it, or else in some crate."""
    for name in re.findall(r'`([\w./-]+/[\w.-]+\.\w+)`', text):
        if re.search(r'\b(NAME|CRATE|FILE)\b', name):
            continue
        places = [HERE, HERE / 'crates', page.parent, *(HERE / 'crates').iterdir()]
        if not any((place / name).exists() for place in places):
            complain(page, f'there is no file {name}')
    for name in re.findall(r'`(\w+\.(?:antt|rt))`', text):
        if not any(HERE.glob(f'crates/*/*/{name}')):
            complain(page, f'no crate has a file {name}')


def anchor(heading):
    return re.sub(r'[^\w\- ]', '', heading.lower()).replace(' ', '-')


def check_links(page, text):
    for target in re.findall(r'\]\(([^)\s]+)\)', text):
        file, _, part = target.partition('#')
        if re.match(r'\w+:', file):
            continue
        to = (page.parent / file) if file else page
        if not to.exists():
            complain(page, f'nothing stands at {target}')
        elif part and part not in map(anchor, re.findall(r'^#+ (.*)$', to.read_text(), re.M)):
            complain(page, f'no heading is {target}')


def check_map(page):
    """Each row of the map names the crates that crates.txt has for its crate, in that order; a row that ends so names some of them."""
    lines = dict(re.findall(r'^([a-z_]+):(.*)$', (HERE / 'crates.txt').read_text(), re.M))
    for head, rows in tables_of(page.read_text()):
        if head[2:] != ['Stands on']:
            continue
        for row in rows:
            crate, told = names_in(row[0])[0], names_in(row[2])
            below = [it for it in lines.get(crate, '').split() if it in lines]
            if told != below and not (row[2].endswith('and those of their definitions') and set(told) <= set(below)):
                complain(page, f'the row of {crate} does not name what crates.txt does: {" ".join(below)}')


def main():
    listed = re.findall(r'^([a-z_]+):', (HERE / 'crates.txt').read_text(), re.M)
    for crate in sorted({*listed, *(it.parent.name for it in HERE.glob('crates/*/src'))}):
        page = HERE / 'crates' / crate / 'README.md'
        if crate not in listed or not page.exists() or not page.read_text().startswith(f'# `{crate}`'):
            complain(page, 'no page of a listed crate')
            continue
        for head, rows in tables_of(page.read_text()):
            if head[1:2] == ['Clause']:
                for row in rows:
                    check_calls(page, crate, row[0])
                    check_clauses(page, crate, row[1])
        check_examples(page, page.read_text())
        if f'`{crate}`' not in (HERE / 'docs/ARCHITECTURE.md').read_text():
            complain(HERE / 'docs/ARCHITECTURE.md', f'{crate} is not on the map')
    check_map(HERE / 'docs/ARCHITECTURE.md')
    proved = HERE / 'docs/PROVED.md'
    for head, rows in tables_of(proved.read_text() if proved.exists() else ''):
        if head == ['Promise', 'Call', 'Clause', 'Crate']:
            for row in rows:
                for crate in names_in(row[3]):
                    check_calls(proved, crate, row[1])
                    check_clauses(proved, crate, row[2])
    check_sentences(HERE / 'README.md', (HERE / 'README.md').read_text())
    for page in filter(pathlib.Path.exists, PAGES):
        check_links(page, page.read_text())
        check_files(page, page.read_text())
    print(*wrong, sep='\n', file=sys.stderr)
    print(f'check_pages: {len(listed)} crates, {len(wrong)} wrong')
    return 1 if wrong else 0


sys.exit(main())
