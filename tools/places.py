"""Counts the places of docs/DESIGN-PASS.md in the sources below a folder: `python3 tools/places.py [--list] [FOLDER]`.

A place is found by its text alone, so a count is where reading starts and no judgement."""
import collections
import pathlib
import re
import sys

listed = '--list' in sys.argv
words = [w for w in sys.argv[1:] if w != '--list']
top = pathlib.Path(words[0] if words else '.')
files = sorted(top.glob('crates/*/src/*.rt'))


def source(path):
    """The code of a file without comments, ghost imports and the braces of its literals."""
    text = re.sub(r'//[^\n]*', '', path.read_text())
    text = re.sub(r'ghost use [^;]*;', '', text)
    return re.sub(r'b?"(?:[^"\\\n]|\\.)*"|b?\'(?:[^\'\\\n]|\\.)\'', lambda m: re.sub(r'[{}()]', '_', m.group(0)), text)


def balanced(text, start, open_sign, close_sign):
    depth = 0
    for i in range(start, len(text)):
        if text[i] == open_sign:
            depth += 1
        elif text[i] == close_sign:
            depth -= 1
            if depth == 0:
                return i + 1
    return len(text)


HEAD = re.compile(r'^[ ]*(?:pub )?(?:const )?(?:extern "C" )?fn (\w+)', re.M)


def functions(text):
    """Each function: name, parameters, clauses, body."""
    for head in HEAD.finditer(text):
        opened = text.index('(', head.end())
        closed = balanced(text, opened, '(', ')')
        at = closed
        clauses = []
        while True:
            clause = re.compile(r'\s*(?:->[^{;]*?\s)?\s*(requires|ensures)\s+(?:\w+\s+)?\{').match(text, at)
            if not clause:
                break
            end = balanced(text, clause.end() - 1, '{', '}')
            clauses.append((clause.group(1), text[clause.end():end - 1].strip()))
            at = end
        brace = text.find('{', at)
        body = text[brace:balanced(text, brace, '{', '}')]
        yield head.group(1), text[opened + 1:closed - 1], clauses, body


def parameters(text):
    text = re.sub(r"'\w+ ", '', text)
    return [' '.join(p.split()) for p in re.split(r',(?![^<\[(]*[>\])])', text) if p.strip()]


def shape(body):
    """A body with its names, numbers and literals taken out."""
    body = re.sub(r'b?"(?:[^"\\]|\\.)*"|b?\'(?:[^\'\\]|\\.)\'', '#', body)
    body = re.sub(r'0x[0-9A-Fa-f]+|\b\d[\d_]*\b', '#', body)
    keywords = 'if else match while loop for in return let mut as true false'.split()
    tokens = re.findall(r'\w+|#|=>|==|<=|>=|&&|\|\||::|\.\.=?|\S', body)
    return ' '.join(t if not re.match(r'[A-Za-z_]', t) or t in keywords else '_' for t in tokens)


everything = [(path, source(path)) for path in files]
found = collections.OrderedDict()


def place(point, sort, where):
    found.setdefault((point, sort), []).append(where)


# 1: Option and Result under other names, flags beside values, numbers for kinds
for path, text in everything:
    for enum in re.finditer(r'enum (\w+)[^{]*\{', text):
        inside = text[enum.end():balanced(text, enum.end() - 1, '{', '}') - 1]
        flat = re.sub(r'\([^()]*\)|\{[^{}]*\}', '+', inside)
        variants = [v.strip() for v in flat.split(',') if v.strip()]
        name = f'{path}: {enum.group(1)}'
        if len(variants) == 2 and any('+' in v for v in variants):
            place('1', 'enums of two variants, one with a value', name)
        elif any(re.match(r'(None|Nothing|Other|Nowhere|Fails)$', v) for v in variants):
            place('1', 'enums with a variant for nothing', name)
    for name, params, clauses, body in functions(text):
        if re.search(r': &mut u(8|16|32|64|size)\b', params):
            place('1', 'functions that write an answer to a number that is lent', f'{path}: {name}')
        if re.search(r'\b(class|group|kind): u(8|32|64)\b', params):
            place('1', 'functions that take a kind as a number', f'{path}: {name}')
    for const in re.finditer(r'^(?:pub )?const (\w+): (?:u8|u32|u64|usize) = \d+;', text, re.M):
        place('1', 'constants that number things', f'{path}: {const.group(1)}')

# 2: functions that differ in names, numbers and literals alone
shapes = collections.defaultdict(list)
for path, text in everything:
    for name, params, clauses, body in functions(text):
        form = shape(body)
        if len(form.split()) >= 12:
            shapes[form].append(f'{path}: {name}')
for form, names in shapes.items():
    if len(names) > 1:
        place('2', 'groups of functions of one form', ' | '.join(names))
        for name in names:
            place('2', 'functions in them', name)

# 3: loops
for path, text in everything:
    for name, params, clauses, body in functions(text):
        for loop in re.finditer(r'\b(while|loop)\b( let)?', body):
            place('3', f'`{loop.group(0)}` loops', f'{path}: {name}')

# 4: equality, order, copying, conversion and printing by hand
BY_HAND = re.compile(r'(is_kind|is_exactly|is_select|is_update|lacks_using|kind_number|dialect_of|wide|low_byte|capital_of|is_capital|'
                     r'is_digit|digit_of|is_letter|is_among|is_spelled|is_spelled_caseless|larger|least|less|at_most|at_most_five|'
                     r'first_of|text_length|text_number|text_detail|refusal_number|refusal_detail|print_refused|print_refusal|'
                     r'put_bytes|is_utf8)$')
for path, text in everything:
    for name, params, clauses, body in functions(text):
        if BY_HAND.match(name):
            place('4', 'functions that derives or the library have', f'{path}: {name}')

# 5: facts in three contracts or more, parameters that travel together
facts = collections.defaultdict(set)
taken = collections.defaultdict(dict)
for path, text in everything:
    crate = path.parts[-3]
    for name, params, clauses, body in functions(text):
        for sort, clause in clauses:
            if sort == 'requires':
                facts[crate, re.sub(r'\.(now|old|new)\b', '', ' '.join(clause.split()))].add(f'{path}: {name}')
        taken[crate][f'{path}: {name}'] = frozenset(parameters(params))
for (crate, clause), names in facts.items():
    if len(names) >= 3:
        place('5', 'facts required in three contracts or more', f'{crate}: {clause} ({len(names)})')
for crate, sets in taken.items():
    shared = {a & b for a in sets.values() for b in sets.values() if len(a & b) >= 3}
    for names in sorted(shared, key=sorted):
        count = sum(names <= other for other in sets.values())
        if count >= 3 and not any(names < more and sum(more <= o for o in sets.values()) == count for more in shared):
            place('5', 'parameters, three or more, that travel together', f'{crate}: {", ".join(sorted(names))} ({count})')

# 6: fixed arrays, and places by start and length
for path, text in everything:
    for array in re.finditer(r'\[(?:u8|u16|u32|u64|usize); \w+\]', text):
        place('6', 'fixed arrays of numbers', f'{path}: {array.group(0)}')
    for name, params, clauses, body in functions(text):
        if re.search(r'\bstart: usize, len: usize\b', params):
            place('6', 'functions that take a start and a length', f'{path}: {name}')

# 7: numbers that pick a function
for path, text in everything:
    for arm in re.finditer(r'^\s+(?:b\'.\'|\d+|0x\w+(?:..=0x\w+)?|_)(?: \| b\'.\')* => ([\w:]+\(.*),$', text, re.M):
        place('7', 'arms by number that call a function', f'{path}: {arm.group(0).strip()}')

# 8: proofs
for path in sorted(top.glob('crates/*/proofs/**/Answers.antt')):
    for answer in re.findall(r'^pub ([^ :]+) :', path.read_text(), re.M):
        place('8', 'answers', f'{path}: {answer}')

for (point, sort), names in found.items():
    print(f'{point}  {len(names):5}  {sort}')
    if listed:
        for name in names:
            print(f'            {name}')
