#!/usr/bin/env python3
"""Lists the places in src/ where the code may have an older form than today's Rattle allows.

    tools/places.py            a count of candidates for each form and crate
    tools/places.py FORM       the candidates of one form: file:line and what stands there

The forms: option (own enums of the shape of Option or Result, flags beside values, numbers for kinds or refusals), twins, index
(loops that count by hand), conversion (equality, order, copying, conversion and printing by hand), together (repeated facts,
parameters that travel together), buffer (buffers with a length beside them, indices in place of what they name), switch (functions
picked by hand), proofs (answers and lemmas). A candidate is what the text shows; whether it is a place is for a reader to say."""
import collections, pathlib, re, sys

ROOT = pathlib.Path(__file__).resolve().parent.parent / 'crates'
FORMS = ['option', 'twins', 'index', 'conversion', 'together', 'buffer', 'switch', 'proofs']


def blank(text):
    """The text with comments blanked, line by line."""
    return re.sub(r'//[^\n]*', '', text)


def brace_end(text, at):
    depth = 0
    for i in range(at, len(text)):
        if text[i] == '{':
            depth += 1
        elif text[i] == '}':
            depth -= 1
            if depth == 0:
                return i + 1
    return len(text)


class File:
    def __init__(self, path):
        self.path = path
        self.crate = path.parent.parent.name
        self.text = blank(path.read_text())

    def line(self, at):
        return self.text.count('\n', 0, at) + 1

    def functions(self):
        """(place, name, parameters, result, clauses, body) of each function."""
        for m in re.finditer(r'\bfn (\w+)\s*(<[^({]*>)?\(', self.text):
            depth, i = 1, m.end()
            while depth:
                depth += {'(': 1, ')': -1}.get(self.text[i], 0)
                i += 1
            params, rest = self.text[m.end():i - 1], self.text[i:]
            result = re.match(r'\s*->\s*([^\n{;]+)', rest)
            j, clauses = i, []
            while True:
                gap = re.match(r'[^{;]*', self.text[j:])
                k = j + gap.end()
                if k >= len(self.text) or self.text[k] == ';':
                    body = ''
                    break
                end = brace_end(self.text, k)
                if re.search(r'\b(requires|ensures)\b(\s+\w+)?\s*$', gap.group()):
                    clauses.append(self.text[k + 1:end - 1].strip())
                    j = end
                    continue
                body = self.text[k:end]
                break
            yield m.start(), m.group(1), params, (result.group(1).strip() if result else ''), clauses, body

    def types(self, word):
        """(place, name, body) of each enum or struct."""
        for m in re.finditer(r'\b%s (\w+)(<[^{;(]*>)?\s*\{' % word, self.text):
            yield m.start(), m.group(1), self.text[m.end() - 1:brace_end(self.text, m.end() - 1)]


def files():
    return [File(p) for p in sorted(ROOT.glob('*/src/*.rt'))]


def variants(body):
    return re.findall(r'(?:^|[{,])\s*(?:#\[[^\]]*\]\s*)*([A-Z]\w*)\s*(\([^)]*\)|\{[^}]*\})?(?=\s*[,}])', body[:-1] + ',}')


def option(all_files):
    for f in all_files:
        for at, name, body in f.types('enum'):
            vs = variants(body)
            payload = [bool(p) for _, p in vs]
            names = [v for v, _ in vs]
            if len(vs) == 2 and (sorted(payload) == [False, True]):
                yield f, at, f'enum {name}: one variant with a value, one without'
            for v, p in vs:
                if 'Not' + v in names:
                    yield f, at, f'enum {name}: {v} and Not{v}'
        for at, name, body in f.types('struct'):
            for m in re.finditer(r'(\w+): bool\b', body):
                yield f, at, f'struct {name}: flag {m.group(1)}'
            for m in re.finditer(r'(number|question|code|kind): u\d+', body):
                yield f, at, f'struct {name}: a number for a kind: {m.group(1)}'
        for at, name, params, result, _, _ in f.functions():
            if re.fullmatch(r'\(.*\bbool\b.*\)', result):
                yield f, at, f'fn {name}: gives {result}'
            if re.fullmatch(r'u(8|16|32)', result) and name not in ('number',):
                yield f, at, f'fn {name}: gives a number, {result}'
            if re.search(r'Option<usize>', params + result):
                yield f, at, f'fn {name}: an optional index or length'


def shape(body):
    """The body with names of types, literals and names of its own made alike."""
    body = re.sub(r'b?"(\\.|[^"\\])*"|b?\'(\\.|[^\'\\])\'', 'L', body)
    body = re.sub(r'\b(0[xb])?[0-9][0-9a-fA-F_]*(u\d+|usize)?\b', 'L', body)
    body = re.sub(r'\bu(8|16|32|64|128|size)\b', 'T', body)
    body = re.sub(r'\b[A-Z]\w*\b', 'T', body)
    return re.sub(r'\s+', ' ', body)


def twins(all_files):
    groups = collections.defaultdict(list)
    for f in all_files:
        for at, name, params, result, _, body in f.functions():
            tests = 'test' in f.path.name or f.crate.endswith('tests')
            if len(body) > 30 and not tests:
                groups['fn', shape(params), shape(body)].append((f, at, f'fn {name}'))
        for word in ('enum', 'struct'):
            for at, name, body in f.types(word):
                key = re.sub(r'\s+', ' ', body)
                names = tuple(v for v, _ in variants(body)) if word == 'enum' else key
                groups[word, names].append((f, at, f'{word} {name}'))
    for n, group in enumerate(g for g in groups.values() if len(g) > 1):
        for f, at, said in group:
            yield f, at, f'group {n}: {said}'


def index(all_files):
    for f in all_files:
        for m in re.finditer(r'\bwhile [^\n{]*|\bloop \{|\bfor \w+ in 0\.\.[^\n{]*|\bfor _ in [^\n{]*', f.text):
            yield f, m.start(), m.group()
        for m in re.finditer(r'\.enumerate\(\)', f.text):
            yield f, m.start(), 'enumerate, where the index may stand for an element'
        for m in re.finditer(r'\b(\w+) (\+= 1|= \1\.saturating_add\(1\));', f.text):
            yield f, m.start(), m.group()


def conversion(all_files):
    patterns = {
        'map by hand': r'Some\((\w+)\) => Some\([^\n]*\n?[^\n]*\n?\s*None => None',
        'ok_or by hand': r'None => Err\(',
        'map_err by hand': r'Err\(_\w*\) => (return )?Err\(',
        'ok by hand': r'Err\(_\w*\) => None',
        'copied into a fresh array': r'let mut \w+ = (Frame \{ bytes: )?\[0; ?\d+\]( \})?;',
        'a cast': r' as u(8|16|32)\b',
        'else by hand': r'let (Some|Ok)\([^)]*\) = [^;]*else \{\s*return (Err|None)',
        'Display': r'impl(<[^>]*>)? fmt::Display for \w+',
        'eq, order or copy': r'impl(<[^>]*>)? (PartialEq|Eq|Ord|PartialOrd|Clone|Copy|Default)\b',
        'a public type without PartialEq': r'#\[derive\((Clone, Copy|Clone, Copy, Debug)\)\]\s*pub (enum|struct) \w+',
    }
    for f in all_files:
        for what, pattern in patterns.items():
            for m in re.finditer(pattern, f.text):
                yield f, m.start(), what + ': ' + re.sub(r'\s+', ' ', m.group())[:70]


def together(all_files):
    clauses = collections.defaultdict(list)
    for f in all_files:
        for at, name, params, _, cs, _ in f.functions():
            depth, count = 0, 1 if params.strip() else 0
            for ch in params.strip().rstrip(','):
                depth += {'(': 1, '<': 1, '[': 1, ')': -1, '>': -1, ']': -1}.get(ch, 0)
                count += ch == ',' and depth == 0
            if count >= 5:
                yield f, at, f'fn {name}: {count} parameters'
            for c in cs:
                clauses[f.crate, re.sub(r'\s+', ' ', c)].append((f, at, name))
    for (crate, clause), where in clauses.items():
        if len({n for _, _, n in where}) >= 3 and len(clause) > 25:
            for f, at, name in where:
                yield f, at, f'fn {name}: {clause[:90]}'


def buffer(all_files):
    for f in all_files:
        for at, name, body in f.types('struct'):
            if re.search(r': \[\w+; \w+\]', body) and re.search(r': usize\b|: u16\b', body):
                yield f, at, f'struct {name}: an array with a length beside it'
            if re.search(r'&\'?\w* ?(mut )?\[u8\]', body) and re.search(r': usize\b', body):
                yield f, at, f'struct {name}: a slice with an index beside it'
            for m in re.finditer(r'(\w+): Option<usize>', body):
                yield f, at, f'struct {name}: {m.group(1)} is an index or a length that may be absent'
        for at, name, params, result, _, _ in f.functions():
            if re.search(r'&mut \[u8|: \[u8; \d+\]', params) and re.search(r'\b(at|len|width|end|used): (usize|u\d+)', params):
                yield f, at, f'fn {name}: a buffer and a place in it'


def switch(all_files):
    for f in all_files:
        for m in re.finditer(r'\bfn\([^)]*\)( ->|\b)|\[fn\b|: \[[A-Z]\w*; \d+\] =', f.text):
            yield f, m.start(), m.group()
        for at, name, params, _, _, body in f.functions():
            if re.search(r': (Until|Mistake|Step|Mode)\b', params) and 'match' in body:
                yield f, at, f'fn {name}: runs by a switch'


def proofs(_):
    for path in sorted(ROOT.glob('*/proofs/**/*.antt')):
        f = File.__new__(File)
        f.path, f.crate, f.text = path, path.relative_to(ROOT).parts[0], path.read_text()
        inside = path.parent.name != 'proofs'
        for m in re.finditer(r'^(?!  )(?:abbrev )?(?:pub )?(\S+) :[ \n]' if not inside else r'^(\S[^=\n]*?) =', f.text, re.M):
            yield f, m.start(), ('answer ' if inside else 'lemma ') + m.group(1)


def main():
    found = {form: list(globals()[form](files())) for form in (sys.argv[1:] or FORMS)}
    if len(sys.argv) > 1:
        for form in found:
            for f, at, said in found[form]:
                print(f'{f.path.relative_to(ROOT)}:{f.line(at)}: {said}')
        return
    for form, places in found.items():
        crates = collections.Counter(f.crate for f, _, _ in places)
        print(f'{form:<11} {len(places):>5}   ' + ', '.join(f'{c} {n}' for c, n in sorted(crates.items())))


main()
