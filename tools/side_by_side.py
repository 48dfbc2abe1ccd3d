"""Prints what changed of public functions, types, definitions and laws since another tree, old and new side by side, for
docs/DESIGN-PASS.md: `python3 tools/side_by_side.py BEGINNING [FOLDER]`, where BEGINNING is a checkout of the commit to compare with."""
import pathlib
import re
import sys

old_top, new_top = (pathlib.Path(p) for p in (sys.argv[1], sys.argv[2] if len(sys.argv) > 2 else '.'))


def flat(text):
    return ' '.join(text.split())


def balanced(text, start):
    """The place past the brace or parenthesis that opens at `start`; signs in literals don't count."""
    pairs = {'{': '}', '(': ')'}
    depth, i, close = 0, start, pairs[text[start]]
    while i < len(text):
        literal = re.compile(r'b?"(?:[^"\\]|\\.)*"|b?\'(?:[^\'\\]|\\.)\'').match(text, i)
        if literal:
            i = literal.end()
            continue
        depth += (text[i] == text[start]) - (text[i] == close)
        i += 1
        if depth == 0:
            return i
    return i


def sources(top, folder, ending):
    for path in sorted(top.glob(f'crates/*/{folder}/**/*.{ending}')):
        yield path.relative_to(top).parts[1], str(path.relative_to(top / 'crates')), path.read_text()


CLAUSE = re.compile(r'\s*(requires|ensures)(?:\s+(\w+))?\s*\{')


def functions(top, public):
    """Each function by crate, type and name: its head and clauses, a line for each."""
    found = {}
    for crate, path, text in sources(top, 'src', 'rt'):
        text = re.sub(r'//[^\n]*', '', text)
        impls = [(m.start(), balanced(text, text.index('{', m.start())), m.group(1))
                 for m in re.finditer(r'^impl(?:<[^>]*>)? (?:[^{]*? for )?(\w+)', text, re.M)]
        for head in re.finditer(r'^[ ]*(pub )?(?:const )?(?:extern "C" )?fn (\w+)', text, re.M):
            if public and not head.group(1):
                continue
            owner = ''.join(name + '::' for start, end, name in impls if start < head.start() < end)
            at = balanced(text, text.index('(', head.end()))
            result = re.compile(r'\s*->\s*(?:[^{;]*?)(?=\s*(?:requires|ensures)\b|\s*\{)').match(text, at)
            at = result.end() if result else at
            lines = [flat(text[head.start():at])]
            while clause := CLAUSE.match(text, at):
                at = balanced(text, clause.end() - 1)
                lines.append('    ' + flat(text[clause.start():at]))
            found[crate, owner + head.group(2)] = lines
    return found


def types(top):
    found = {}
    for crate, path, text in sources(top, 'src', 'rt'):
        text = re.sub(r'//[^\n]*', '', text)
        for head in re.finditer(r'^pub (?:struct|enum) (\w+)', text, re.M):
            signs = re.compile(r'[{(;]').search(text, head.end())
            end = balanced(text, signs.start()) if signs.group(0) != ';' else signs.end()
            found[crate, head.group(1)] = [flat(text[head.start():end])]
        for head in re.finditer(r'^impl(?:<[^>]*>)? (\w+)(?:<[^>]*>)? for (\w+)', text, re.M):
            body = text[text.index('{', head.start()):balanced(text, text.index('{', head.start()))]
            ghosts = re.findall(r'ghost (?!use)\w+ = \{[^;]*\};', body)
            if ghosts:
                found[crate, f'{head.group(1)} for {head.group(2)}'] = [flat(head.group(0))] + ['    ' + flat(g) for g in ghosts]
    return found


def definitions(top):
    """Each definition of specs/, from its head to the next blank line or head."""
    head = re.compile(r'(?:unfoldable |abbrev )*(?:pub )?(?:record |data )?([\w\']+) *(?:\(.*\))? *:')
    found = {}
    for crate, path, text in sources(top, 'specs', 'antt'):
        text = re.sub(r'^\s*--[^\n]*\n', '\n', text, flags=re.M)
        for block in re.split(r'\n\s*\n', text):
            lines = [line for line in block.split('\n') if not line.startswith('use ')]
            starts = [i for i, line in enumerate(lines) if head.match(line) and line[0] not in ' -']
            for i, end in zip(starts, starts[1:] + [len(lines)]):
                found[crate, head.match(lines[i]).group(1)] = [path, flat(' '.join(lines[i:end]))]
    return found


def laws(top):
    """Each public law's statement, up to its own first clause, a blank line or what is less indented."""
    head = re.compile(r'( *)(?:unfoldable |abbrev )*pub (?:record |data )?([\w\']+)\b[^:]*:')
    found = {}
    for crate, path, text in sources(top, 'proofs', 'antt'):
        if path.count('/') != 2:
            continue
        lines = text.split('\n')
        for i, line in enumerate(lines):
            start = head.match(line)
            if not start:
                continue
            statement = [line]
            for more in lines[i + 1:]:
                if len(more) - len(more.lstrip()) <= len(start.group(1)):
                    break
                statement.append(more)
            found[crate, start.group(2)] = [path, re.sub(r' unfolding .*', '', flat(' '.join(statement)))]
    return found


OPTIONS = (r'Option ℕ|Option Piece|Option Key|Option Gap|Option TokenKind|Option \(Token × Cursor\)|Result Settings Refusal|'
           r'Result ℕ Refusal|Result Totals Refusal|Taken|Recognised|Number|IllFormed|Step|Checked|TextAnswer|TableAnswer|Key|Gap|Place')


def renamed(text):
    """A text with the types of the pass and their words under one name."""
    text = re.sub(r'\b[A-Z]\.(?=[A-Z])', '', text)
    text = re.sub(OPTIONS, 'O', text)
    text = re.sub(r'\b(Bytes|Is|At|Accepted|Token|Written|Behind|Some|Ok)\b', 'S', text)
    text = re.sub(r'\b(Fails|Overflows|Nowhere|Done|Nothing|First|None)\b', 'N', text)
    text = re.sub(r'\b(Refused|Err)\b', 'E', text)
    return re.sub(r'[() ]|\bS (?=S\b)', '', text)


def told(before, after):
    print('\n```')
    for sign, lines in (('- ', before), ('+ ', after)):
        for line in lines:
            print(sign + line)
    print('```')


def listed(title, table, keys):
    if keys:
        print(f'\n{title}\n')
        for key in keys:
            print(f'- `{key[0]}`: `{" ".join(table[key]).replace("    ", "")}`')


def compared(title, began, now, anywhere):
    """Old and new of what changed, then what is gone and what is new; `anywhere` has also what is no longer public."""
    print(title)
    for key in began:
        if key in anywhere and anywhere[key] != began[key]:
            print(f'\n`{key[0]}`, `{key[1]}`:')
            told(began[key], anywhere[key])
    listed('Gone, or under another type or name:', began, [k for k in began if k not in anywhere])
    listed('New:', now, [k for k in now if k not in began])


compared('### Public functions', functions(old_top, True), functions(new_top, True), functions(new_top, False))
compared('\n### Types and what they say of their values', types(old_top), types(new_top), types(new_top))

for title, read in (('Definitions', definitions), ('Laws and theorems', laws)):
    print(f'\n### {title}')
    began, now = read(old_top), read(new_top)
    changed = [k for k in began if k in now and began[k][1] != now[k][1]]
    alone = [k for k in changed if renamed(began[k][1]) == renamed(now[k][1])]
    if alone:
        print('\nBy the renaming of types alone: ' + ', '.join(f'{k[0]} `{k[1]}`' for k in sorted(alone)))
    for key in changed:
        if key not in alone:
            print(f'\n`{now[key][0]}`, `{key[1]}`:')
            told(began[key][1:], now[key][1:])
    if title == 'Definitions':
        listed('Gone:', {k: v[1:] for k, v in began.items()}, [k for k in began if k not in now])
        listed('New:', {k: v[1:] for k, v in now.items()}, [k for k in now if k not in began])
    else:
        for word, one, other in (('Gone', began, now), ('New', now, began)):
            print(f'\n{word}: ' + ', '.join(f'{k[0]} `{k[1]}` ({one[k][0].split("/")[-1]})' for k in one if k not in other))
