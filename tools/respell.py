#!/usr/bin/env python3
"""Spells the repository's own names in antt as today's Rattle spells them.

Run it at the repository's top, without arguments: `python3 tools/respell.py`. It changes spelling alone,
it may be run again (then it finds nothing), and what it writes depends on nothing but the files.
Lines change their widths, so let the formatter wrap them again afterwards, as a step of its own:

    for c in crates/*; do (cd $c && rt fmt); done

What is renamed, everywhere at once:

* `camelCase` becomes `snake_case`, as `maxLayers` and `max_layers`;
* a dash between two letters or digits becomes an underscore, as `le-or-lt` and `le_or_lt`;
* a definition whose value is a type is `UpperCamelCase` (OTHER lists them).

Where: the antt files of specs/ and proofs/; the ghost parts of src/*.rt (`ghost use` lines and clauses) and its
comments; the lines of must-fail/*.edit that are antt or ghost; names in the pages (README.md, docs/).

What stays: names of Rattle's own libraries, names from Rust (functions, fields, constants, variables), names that
Rattle makes (what a module beside a function holds: `tie.Need-returns`, `c.before.span-good.ensures`; the
answers to its goals and the `X-spec` at a Proof.antt's end), modules and files.

A lemma whose new name would be another name of a file that mentions it gets `_lem`. Any other fall together stops the
script before it writes: then OTHER must say what the one of them is called.
"""
import glob
import os
import re
import sys

# Names whose new spelling doesn't follow from the old one.
OTHER = {
    # its value is a type
    "is-sound": "IsSound",
}

TOKEN = re.compile(r'[^\s(){}\[\];,."`]+')
USE = re.compile(r'^([ \t]*(?:pub )?use )([^\s{;]+?)(?:\.\{([^}]*)\})?(?: as (\S+))?[ \t]*$', re.M)
GHOST_USE = re.compile(r'^([ \t]*ghost use )([^\s{;]+?)(?:\.\{([^}]*)\})?;', re.M)
CLAUSE = re.compile(r'^[ \t]*(?:requires|ensures|decreases|invariant|ghost(?! use)\b[^{;]*?)\b[ \t]*[a-z0-9_]*[ \t]*(?=\{)', re.M)
# what Rattle says of a proof in words of its own
MADE = re.compile(r'(invariant-|decreases-|returns-|Need-|After-|Inv-).*|.*-spec')


def wordy(ch):
    return ch.isalnum() or ch == "'"


def old(name):
    """whether the name is spelled the old way"""
    if '#' in name or '·' in name or '::' in name:
        return False
    if name[:1].islower() and re.search(r'[a-z0-9][A-Z]', name):
        return True
    return any(c == '-' and wordy(name[i - 1]) and name[i + 1].isalnum() for i, c in enumerate(name) if 0 < i < len(name) - 1)


def respelled(name):
    """today's spelling of an old name"""
    if name in OTHER:
        return OTHER[name]
    out = ''
    for i, c in enumerate(name):
        if c == '-' and 0 < i < len(name) - 1 and wordy(name[i - 1]) and name[i + 1].isalnum():
            out += '_'
        else:
            out += c
    if name[0].islower():
        out = re.sub(r'(?<=[a-z0-9])([A-Z])|(?<=[A-Z])([A-Z])(?=[a-z])', lambda m: '_' + m[0].lower(), out)
    return out


class Source:
    """an antt file, cut into code and comments, with the names that it brings in"""

    def __init__(self, path, modules):
        self.path = path
        self.answers = path.endswith('/Proof.antt')
        self.text = open(path, encoding='utf-8').read()
        self.foreign, self.modules, self.bare = set(), {}, set()
        self.own_modules = modules
        code = '\n'.join(split(l)[0] for l in self.text.split('\n'))
        for m in USE.finditer(code):
            own = m[2] in modules
            for n in (m[3] or '').split(','):
                n, _, alias = (x.strip() for x in n.partition(' as '))
                if n and not own:
                    self.foreign.add(n)
                elif n:
                    self.bare.add(n)
                if alias:
                    self.bare.add(alias)
            self.modules[m[4] or m[2].split('.')[-1]] = own
        code = USE.sub('', code)
        for m in TOKEN.finditer(code):
            if not dotted(code, m.start()):
                self.bare.add(m[0])
        # the answers to goals, whose names are Rattle's to choose
        self.kept = set()
        if self.answers:
            for m in re.finditer(r'^[ \t]*(?:pub )?(\S+) : (\S+)\.(\S+)', code, re.M):
                if m[3].startswith(('Need', 'After', 'Inv', 'invariant', 'decreases')):
                    self.kept.add(m[1])
            self.kept |= {n for n in self.bare if MADE.fullmatch(n)}
        self.owned = {n for n in self.bare if old(n)} - self.foreign - self.kept
        self.fields = fields_of(code)


def fields_of(code):
    """the names of the fields of a file's records"""
    out, depth = set(), None
    for line in code.split('\n'):
        indent = len(line) - len(line.lstrip())
        if depth is not None and line.strip():
            if indent <= depth:
                depth = None
            else:
                m = re.match(r' +(?:pub )?((?:[^\s(){}\[\];,."]+ )+):', line)
                out |= set(m[1].split()) if m else set()
        if re.match(r' *(?:pub )?record .* where$', line):
            depth = indent
    return out


def split(line):
    """a line's code and its comment"""
    m = re.search(r'(^|(?<=\s))--(?=\s|-|$)', line)
    return (line[:m.start()], line[m.start():]) if m else (line, '')


def dotted(code, at):
    """whether a name is what a dot takes from another"""
    return at > 0 and code[at - 1] == '.' and at > 1 and (code[at - 2] in ')}' or not (code[at - 2].isspace() or code[at - 2] in '([{,;'))\
        and not binder(code, at)


def binder(code, at):
    """whether the dot before it ends a binder, as in `λ x.y`"""
    line = code[code.rfind('\n', 0, at) + 1:at - 1]
    m = re.search(r'λ [^.λ]*$', line)
    return bool(m)


def chain(code, at):
    """the names before a dotted one, the first of them first"""
    i = at
    while i > 0 and not (code[i - 1].isspace() or code[i - 1] in '(){}[];,"`'):
        i -= 1
    return code[i:at - 1].split('.')


def all_antt():
    # answers and invariants are named by Rattle, and written in today's spelling
    return sorted(f for part in ('specs', 'proofs') for f in glob.glob(f'crates/*/{part}/**/*.antt', recursive=True) if not re.search(r'/proofs/.+/(Answers|Invariants)\.antt$', f))


def module_of(path):
    parts = path[:-len('.antt')].split('/')
    return '.'.join(['Rattle', parts[1]] + parts[2:])


def ghost_spans(text):
    """where the ghost text of a Rust file lies: `ghost use` lines and the braces of its clauses"""
    spans = [m.span() for m in GHOST_USE.finditer(text)]
    for m in CLAUSE.finditer(text):
        depth, i = 0, m.end()
        while i < len(text):
            depth += {'{': 1, '}': -1}.get(text[i], 0)
            i += 1
            if depth == 0:
                break
        spans.append((m.end(), i))
    return sorted(spans)


def rust_parts(text):
    """a Rust file as (kind, text): ghost, comment, or rust"""
    out, at = [], 0
    spans = ghost_spans(text)
    def plain(s):
        for i, line in enumerate(re.split(r'(\n)', s)):
            m = re.search(r'(^|(?<=\s))//', line)
            if m:
                out.append(('rust', line[:m.start()]))
                out.append(('comment', line[m.start():]))
            else:
                out.append(('rust', line))
    for a, b in spans:
        if a < at:
            continue
        plain(text[at:a])
        out.append(('ghost', text[a:b]))
        at = b
    plain(text[at:])
    return out


def rust_names(text):
    """the names of a Rust file that a clause could mean: all but its functions"""
    code = ''.join(s for k, s in rust_parts(text) if k == 'rust')
    return set(re.findall(r'\b[a-z][a-z0-9_]*\b(?!\s*[(:]{1,2}(?=[^ ]))', code)) - set(re.findall(r'\bfn ([a-z0-9_]+)', code))


def definitions(source):
    """the names that a file defines, and those of them that are lemmas"""
    code = '\n'.join(split(l)[0] for l in source.text.split('\n'))
    every, lemmas = set(), set()
    for m in re.finditer(r'^ *((?:pub |abbrev |unfoldable |opaque )*)([^\s(){}\[\];,.="]+)((?: [^\s(){}\[\];,.=":]+)*)(?: \{[^}]*\}| \([^)]*\))* : ', USE.sub('', code), re.M):
        for n in [m[2]] + m[3].split():
            every.add(n)
            if 'abbrev' not in m[1] and 'unfoldable' not in m[1]:
                lemmas.add(n)
    return every, lemmas


def mapping(sources):
    """old name -> new for all files, and lemma -> new for those that already have the name of a definition"""
    plain = [s for s in sources if not s.answers]
    domain = set().union(*(s.owned for s in sources))
    new = {n: respelled(n) for n in domain}
    # the old names that get one new name: the one without a dash is a definition
    groups = {}
    for n in sorted(domain):
        groups.setdefault(new[n], []).append(n)
    libraries = set().union(*(s.foreign for s in sources))
    known = {s.path: definitions(s) for s in plain}
    defined = set().union(*(e - l for e, l in known.values()))
    lemmas = set().union(*(l for e, l in known.values()))
    lasting = set().union(*(s.bare for s in plain))
    moved = set()
    for to, ns in groups.items():
        if len(ns) > 1 or to in defined or to in libraries:
            for n in ns:
                if '-' in n and n not in OTHER and n in lasting and (n in lemmas or len(ns) > 1):
                    new[n] = to + '_lem'
        if to in lemmas and to not in defined and any('-' not in n for n in ns):
            moved.add(to)
    return new, {n: n + '_lem' for n in moved}, known


def renamed(source, new, moved, known, homes):
    """what the bare names of one file become"""
    out = {n: new[n] for n in source.owned}
    lem = set()
    if source.path in known:
        lem |= known[source.path][1] & set(moved)
    code = '\n'.join(split(l)[0] for l in source.text.split('\n'))
    for m in USE.finditer(code):
        home = homes.get(m[2])
        if home and home in known and m[3]:
            lem |= {n.split(' as ')[0].strip() for n in m[3].split(',')} & set(moved) & known[home][1]
    out.update((n, moved[n]) for n in lem)
    return out


def code_respelled(code, names, source, new, fields):
    """antt code without comments, its names replaced"""
    def use(m):
        own = m[2] in source.own_modules
        parts = []
        for n in (m[3] or '').split(','):
            lead = n[:len(n) - len(n.lstrip())]
            a, mid, b = n.strip().partition(' as ')
            parts.append(lead + (names.get(a, a) if own else a) + mid + names.get(b, b))
        out = m[1] + m[2]
        if m[3] is not None:
            out += '.{' + ','.join(parts) + '}'
        if m[4]:
            out += ' as ' + names.get(m[4], m[4])
        rest = m[0][len(m[1] + m[2]) + (len(m[3]) + 3 if m[3] is not None else 0) + (len(m[4]) + 4 if m[4] else 0):]
        return out + rest
    m = USE.match(code)
    if m:
        return use(m) + code[m.end():]

    def token(m):
        n = m[0]
        if not dotted(code, m.start()):
            return names.get(n, n)
        if n not in new:
            return n
        before = chain(code, m.start())
        root = before[0]
        if '.'.join(before) in source.own_modules or source.modules.get(root) is True:
            return new[n]
        if source.modules.get(root) is False or root in source.foreign or (len(before) > 1 and before[1][:1].isupper()):
            return n
        # in a function's proof, what a step of its code is called and what is known of it
        if source.answers and (n not in fields or root == 'c' or re.match(r'\.(ensures|requires|result|before)\b', code[m.end():])):
            return n
        return new[n]
    return TOKEN.sub(token, code)


def prose_respelled(text, words, ticked):
    """text beside code: names in backquotes, and outside of them names that no prose has"""
    def span(m):
        return TOKEN.sub(lambda t: words(t[0]), m[0])
    text = re.sub(r'`[^`\n]+`', span, text)
    if not ticked:
        text = re.sub(r'[^\s(){}\[\];,."`]+', lambda m: words(m[0]) if '-' not in m[0] else m[0], text)
    return text


def main():
    if not os.path.isdir('crates'):
        sys.exit('run it at the top of the repository')
    paths = all_antt()
    homes = {module_of(p): p for p in paths}
    sources = [Source(p, homes) for p in paths]
    new, moved, known = mapping(sources)
    fields = set().union(*(s.fields for s in sources if not s.answers))
    declared = set(new.values()) | set().union(*(e for e, l in known.values()))
    written = {}

    # a name in prose, also one that has changed its spelling earlier
    def word(n):
        if n in new:
            return new[n]
        return respelled(n) if old(n) and respelled(n) in declared else n

    table = {}
    for s in sources:
        table[s.path] = names = renamed(s, new, moved, known, homes)
        told = {}
        for n in sorted(s.bare | s.foreign):
            to = names.get(n, n)
            if to in told and to in names.values():
                sys.exit(f'{s.path}: `{told[to]}` and `{n}` would both be `{to}`: say in OTHER what the one is called')
            told[to] = n
        lines = []
        for line in s.text.split('\n'):
            code, comment = split(line)
            lines.append(code_respelled(code, names, s, new, fields) + prose_respelled(comment, word, False))
        written[s.path] = '\n'.join(lines)

    # the ghost text of Rust
    rust = {}
    for path in sorted(glob.glob('crates/*/src/*.rt')):
        text = open(path, encoding='utf-8').read()
        foreign = {n.strip() for m in GHOST_USE.finditer(text) if m[2] not in homes for n in (m[3] or '').split(',')}
        ghost = set().union(*(set(TOKEN.findall(s)) for k, s in rust_parts(text) if k == 'ghost'), set())
        names = {n: new[n] for n in ghost & set(new) - foreign}
        aliases = {n.partition(' as ')[2].strip() for m in GHOST_USE.finditer(text) for n in (m[3] or '').split(',')}
        names.update((n, respelled(n)) for n in aliases if n and old(n))
        told = {}
        for n in sorted(ghost | rust_names(text)):
            to = names.get(n, n)
            if to in told and to in names.values():
                sys.exit(f'{path}: `{told[to]}` and `{n}` would both be `{to}`: say in OTHER what the one is called')
            told[to] = n
        rust[path] = names
        out = ''
        for kind, part in rust_parts(text):
            if kind == 'ghost':
                lines = [re.match(r'(.*?)((?:(?<=\s)|^)//.*)?$', l).groups('') for l in part.split('\n')]
                out += '\n'.join(TOKEN.sub(lambda m: names.get(m[0], m[0]), a) + prose_respelled(b, word, False) for a, b in lines)
            else:
                out += prose_respelled(part, word, False) if kind == 'comment' else part
        written[path] = out

    # wrong programs: each pair of lines as the file that they stand in
    for path in sorted(glob.glob('crates/*/must-fail/*.edit')):
        crate = path.split('/must-fail/')[0]
        target, ghostly, out = None, False, []
        for line in open(path, encoding='utf-8').read().split('\n'):
            head, _, rest = line.partition(' ')
            if head == 'file:':
                target = f'{crate}/{rest.strip()}'
            elif head in ('old:', 'new:'):
                if target in table or target.endswith('.antt'):
                    names = table.get(target, {})
                    line = head + ' ' + TOKEN.sub(lambda m: names.get(m[0], word(m[0])), rest)
                else:
                    if head == 'old:':
                        ghostly = is_ghost(target, rest)
                    if ghostly:
                        line = head + ' ' + TOKEN.sub(lambda m: word(m[0]), rest)
            else:
                line = prose_respelled(line, word, False)
            out.append(line)
        written[path] = '\n'.join(out)

    # pages: what stands as code
    for path in sorted(['README.md'] + glob.glob('docs/**/*.md', recursive=True) + glob.glob('crates/*/data/*.md')):
        out, fenced = [], False
        for line in open(path, encoding='utf-8').read().split('\n'):
            if line.lstrip().startswith('```'):
                fenced = not fenced
            elif fenced:
                line = TOKEN.sub(lambda m: word(m[0]), line)
            else:
                line = prose_respelled(line, word, True)
            out.append(line)
        written[path] = '\n'.join(out)

    changed = 0
    for path, text in sorted(written.items()):
        if text != open(path, encoding='utf-8').read():
            changed += 1
            with open(path, 'w', encoding='utf-8') as f:
                f.write(text)
    camel = [n for n in new if '-' not in n]
    print(f'{len(new) + len(moved)} names: {len(camel)} of camelCase, {len(new) - len(camel)} with a dash, {len(moved)} lemmas moved; {changed} files changed')
    for n, to in sorted({**new, **moved}.items()):
        if to != respelled(n):
            print(f'  {n} -> {to}')


def is_ghost(path, text):
    """whether a line of an edit stands in ghost text"""
    whole = open(path, encoding='utf-8').read() if os.path.exists(path) else ''
    at = whole.find(text)
    if at >= 0:
        return any(a <= at < b for a, b in ghost_spans(whole)) or bool(re.match(r'\s*(ghost|requires|ensures)\b', text))
    return bool(re.match(r'\s*(ghost|requires|ensures)\b', text)) or any(c in text for c in 'ℕ≡≤◌λ')


if __name__ == '__main__':
    main()
