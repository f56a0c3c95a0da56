#!/usr/bin/env python3
"""Checks that specs/ shows what is a promise.

    tools/spec_pages.py [--check]    prints a line for each finding; the exit status is 0 if there is none, else 1
    tools/spec_pages.py --list       lists the pages of each crate that public clauses reach, and those that none reaches
    tools/spec_pages.py --why X      says how public clauses reach page X, such as java_properties.specs.ReadLines
    tools/spec_pages.py --root R     does so in another clone

A public clause is a clause of a public function, a ghost member of a public trait or of its impl for a public type, or
the ghost value by which contracts see a public type. Views and invariants are private. A clause reaches the pages of
what it names, and a page reaches those that it imports.

Checked are:

- each page outside of specs/Private/ and specs/Computed/ is reached by a public clause
- no page in specs/Private/ is
- no public clause of the library and the tools names anything of Private or Computed
- what their pages, and the definitions that they reach, take from Private and Computed is what docs/FORMAT.md lists
"""
import os, re, sys

FORMAT = 'properties_format'
# Crates that promise nothing: examples, tests and tables.
NO_PROMISES = ('calling', 'properties_tests', 'program_tests', 'program_vectors', 'vector_notation', 'reading_vectors', 'writing_vectors', 'editing_vectors')
# The crates whose contracts callers read, with what these re-export from others.
READ = ('java_properties', 'properties_tools')
# Layers below the tools, the upper ones first. Of these, public is what others re-export.
LAYERS = ('properties_changing', 'properties_checking', 'properties_tables')
HEADING = '### What public pages take from the others'
IMPORT = r'Rattle\.([\w.]+?)(?:\.\{([^}]*)\}| as ([\w-]+))?'
# What is before an import and after it, on a page and in code.
USE = r'^[ \t]*(?:pub )?use ', r'[ \t]*$'
GHOST_USE = r'ghost use\s+', r'\s*;'
# Names of several pages in one import.
JOINED = re.compile(r'^(use Rattle\.\w+\.\w+)\.\{([^}]*\w\.[^}]*)\}$', re.M)
WORD = re.compile(r"[^\s(){}\[\],;.]+")


def blanked(text):
    """Rust text without its comments, strings and characters."""
    token = r'//[^\n]*|/\*.*?\*/|r(#*)".*?"\1|"(?:\\.|[^"\\])*"|b?\'(?:\\[^\']*|[^\'\\\s])\''
    return re.sub(token, lambda m: re.sub(r'[^\n]', ' ', m[0]), text, flags=re.S)


def closing(text, at):
    """The place after the brace that closes the one at this place."""
    depth = 0
    for m in re.compile(r'[{}]').finditer(text, at):
        depth += 1 if m[0] == '{' else -1
        if depth == 0:
            return m.end()
    return len(text)


class Item:
    """An item of Rust: its kind, whether it is `pub`, its head, and what is in it."""

    def __init__(self, kind, is_public, name, head):
        self.kind, self.is_public, self.name, self.head = kind, is_public, name, head
        self.clauses, self.ghost, self.inner, self.body = [], {}, [], ''


ITEM = re.compile(
    r'(?P<public>\bpub\s+)?(?P<within>\bpub\([^)]*\)\s+)?(?:(?:unsafe|default|async|extern)\s+)*'
    r'(?P<kind>\bghost\s+use|\bghost|\buse|\bmod|\bstruct|\benum|\btrait|\bimpl|\bconst(?=\s+fn)|\bfn|\bconst|\bstatic'
    r'|\btype|\bunion|\bmacro_rules)\b')


def items(text):
    """The items of a file, or of the braces of an item."""
    found, at = [], 0
    while True:
        m = ITEM.search(text, at)
        if not m:
            return found
        kind, public = m['kind'], bool(m['public'])
        if kind == 'const' and re.match(r'\s+fn\b', text[m.end():]):
            at = m.end()
            m = re.compile(r'\s*(fn)\b').match(text, at)
            kind = 'fn'
        name = re.compile(r'\s*([\w*]+)').match(text, m.end())
        item = Item(re.sub(r'\s+', ' ', kind), public, name[1] if name else '', '')
        start = at = m.end()
        depth = 0
        while at < len(text):
            c = text[at]
            if c in '([':
                depth += 1
            elif c in ')]':
                depth -= 1
            elif c == ';' and depth == 0:
                at += 1
                break
            elif c == '{' and kind in ('use', 'ghost use'):
                at = closing(text, at) - 1
            elif c == '{' and depth == 0:
                end = closing(text, at)
                before = text[start:at]
                clause = re.search(r'\b(requires|ensures|ghost)\b\*?\s*[\w*]*\s*:?\s*$', before)
                if kind == 'fn' and clause:
                    item.clauses.append(text[at + 1:end - 1])
                    at = end
                    continue
                item.body = text[at + 1:end - 1]
                at = end
                if kind == 'ghost':
                    continue
                break
            at += 1
        item.head = text[start:at] if kind in ('use', 'ghost use') else text[start:at].split('{')[0]
        if kind in ('impl', 'trait', 'mod'):
            item.inner = items(item.body)
        found.append(item)


def divided(joined):
    """An import of names of several pages as one import for each name."""
    return '\n'.join(f'{joined[1]}.{page}.{{{name}}}' for page, name in (it.rsplit('.', 1) for it in joined[2].split(', ')))


class Page:
    """A page of definitions: what it imports, and its text without comments."""

    def __init__(self, text):
        self.text = JOINED.sub(divided, re.sub(r'^\s*--.*$', '', text, flags=re.M))
        self.uses = uses_of(self.text, *USE)
        self.imported = len(re.findall(USE[0] + IMPORT + USE[1], self.text, re.M))
        self.hands_on = re.findall(r'^pub use Rattle\.([\w.]+)[ \t]*$', self.text, re.M)
        self.imports = {here: (page, there) for page, there, here in self.uses if there is not None}
        self.aliases = [(here, page) for page, there, here in self.uses if there is None]
        self.definitions, self.names = {}, {}
        current = None
        for line in self.text.split('\n'):
            if re.match(r'(pub )?(use|mod|module|unfolding)\b', line) or not line.strip():
                continue
            if not line[0].isspace() and line[0] not in ')]}':
                words = re.sub(r'^(?:(?:abbrev|pub|unfoldable|record|data|rec)\s+)+', '', line).split()
                current = words[0]
                self.names.setdefault(current, current)
            if current:
                self.definitions[current] = self.definitions.get(current, '') + line + '\n'
                constructor = re.match(r'\s+\|?\s*([^\s:(){}|]+)(?:\s+:|\s*$)', line)
                if constructor:
                    self.names.setdefault(constructor[1], current)


def uses_of(text, before, after):
    """Imports: (page, name there, name here); the name there is None where a page is imported whole."""
    found = []
    for m in re.finditer(before + IMPORT + after, text, re.M):
        if m[2] is None:
            found.append((m[1], None, m[3] or m[1].rsplit('.', 1)[-1]))
        else:
            for name in filter(None, (x.strip() for x in m[2].split(','))):
                there, _, here = name.partition(' as ')
                found.append((m[1], there.strip(), (here or there).strip()))
    return found


def names_it(text, words, here):
    """Whether a text names what was imported by this name."""
    if '◌' in here:
        return all(part in text for part in here.split('◌') if part)
    return here in words


def behind(here, text):
    """The names that a text takes from a page that was imported whole, under this name."""
    return re.findall(rf'(?<![\w.]){re.escape(here)}\.([^\s(){{}}\[\],;.]+)', text)


class Repository:
    def __init__(self, root):
        self.root, self.pages, self.paths, self.files = root, {}, {}, {}
        folder = os.path.join(root, 'crates')
        self.crates = sorted(c for c in os.listdir(folder) if os.path.isdir(os.path.join(folder, c, 'src')))
        for crate in self.crates:
            for at, folders, names in os.walk(os.path.join(folder, crate)):
                folders[:] = sorted(f for f in folders if f != 'out')
                for name in names:
                    path = os.path.join(at, name)
                    inside = os.path.relpath(path, os.path.join(folder, crate))
                    if inside.startswith('specs/') and name.endswith('.antt'):
                        page = crate + '.' + inside[:-5].replace('/', '.')
                        self.pages[page], self.paths[page] = Page(open(path).read()), path
                    elif inside.startswith('src/') and name.endswith('.rt'):
                        self.files[crate, inside[4:-3]] = items(blanked(open(path).read()))
        # `pub use` of a page re-exports it under the name of the page that has the line.
        self.handed = {}
        for page, of in self.pages.items():
            for target in of.hands_on:
                base = page[:-4] if page.endswith('.specs.Lib') else page
                self.handed[base + '.' + target.rsplit('.', 1)[1]] = target
        self.models = {}
        for (crate, file), content in self.files.items():
            for item in content:
                if item.kind == 'impl' and re.search(r'\bModel\s+for\b', item.head):
                    self.models[crate, type_of(item.head)] = (file, item)
        # What a crate re-exports from another: (the crate, the other, the name).
        self.handed_items = set()
        self.roots = []
        for crate in [c for c in self.crates if c not in LAYERS] + [c for c in LAYERS if c in self.crates]:
            self.roots += self.public_clauses(crate)

    # ---- pages

    def resolved(self, page):
        """The page of an import that may be re-exported, and may end in a name of the page."""
        for _ in range(4):
            for name, target in self.handed.items():
                if page == name or page.startswith(name + '.'):
                    page = target + page[len(name):]
                    break
            else:
                break
        return page

    def reached_by(self, page):
        """The pages that an import of this one reaches by itself."""
        page = self.resolved(page)
        if page in self.pages:
            return [page]
        m = re.match(r'(\w+)\.specs\.(?:declared|contracts)\.(?:\w+\.)*?([A-Z]\w*)', page)
        if m and (m[1], m[2]) in self.models:
            return self.value_pages(m[1], m[2])
        return []

    def value_pages(self, crate, name):
        file, item = self.models[crate, name]
        value = [x for x in item.inner if x.kind == 'ghost' and x.name == 'Value']
        return [p for x in value for p, _ in self.cited(crate, file, [item], x.body)]

    def cited(self, crate, file, within, text):
        """The pages that a ghost text of a file names something of, and what."""
        words, found = set(WORD.findall(text)), []
        scope = self.files[crate, file] + [x for item in within for x in item.inner]
        for item in scope:
            if item.kind == 'ghost use':
                for page, there, here in uses_of('ghost use' + item.head, *GHOST_USE):
                    for reached in self.reached_by(page):
                        if there is None:
                            found += [(reached, name) for name in behind(here, text)]
                        elif names_it(text, words, here):
                            found.append((reached, there))
        return found

    # ---- what is public

    def module(self, crate, file):
        for name in (file, 'lib' if file == '' else None, 'main' if file == '' else None):
            if name and (crate, name) in self.files:
                return name
        return None

    def exported(self, crate, file, seen):
        """Marks what a module shows: its public items, and those that it re-exports."""
        if file is None or (crate, file) in seen:
            return
        seen.add((crate, file))
        base = '' if file in ('lib', 'main') else file
        for item in self.files[crate, file]:
            if item.kind == 'mod' and item.is_public and not item.body:
                self.exported(crate, self.module(crate, (base + '/' if base else '') + item.name), seen)
            elif item.kind in ('mod', 'use') and item.is_public:
                # A module whose braces stand here has only lines `pub use` of other crates.
                for use in item.inner if item.kind == 'mod' else [item]:
                    for path in paths_of(use.head):
                        self.hand_on(crate, base, path, seen)
            elif item.is_public:
                self.shown.add((file, item.name))

    def hand_on(self, crate, base, path, seen):
        parts = path.split('::')
        if parts[0] in self.crates and parts[0] != crate:
            self.handed_items.add((crate, parts[0], parts[-1]))
            return
        if parts[0] == 'crate':
            base, parts = '', parts[1:]
        while parts and parts[0] in ('self', 'super'):
            base = base if parts[0] == 'self' else os.path.dirname(base)
            parts = parts[1:]
        for part in parts[:-1]:
            base = (base + '/' if base else '') + part
        file = self.module(crate, base)
        if file is None or not parts:
            return
        name = parts[-1]
        inner = self.module(crate, (base + '/' if base else '') + name)
        for item in self.files[crate, file]:
            if item.kind == 'use' and not (name == '*'):
                for other in paths_of(item.head):
                    if other.rsplit('::', 1)[-1] == name and (other, base) != (path, base):
                        self.hand_on(crate, base, other, seen)
            elif name in ('*', item.name) and item.kind not in ('impl', 'ghost', 'ghost use', 'mod'):
                self.shown.add((file, item.name))
        if inner and any(x.kind == 'mod' and x.name == name for x in self.files[crate, file]):
            self.exported(crate, inner, seen)

    def public_clauses(self, crate):
        """(where, page, name) of what each public clause of a crate names."""
        self.shown = set()
        start = self.module(crate, '')
        if start is None:
            return []
        if crate in LAYERS:
            handed = {name for _, other, name in self.handed_items if other == crate}
            self.shown = {(f, x.name) for (c, f), xs in self.files.items() if c == crate for x in xs if x.name in handed}
        else:
            self.exported(crate, start, set())
        if start == 'main':
            self.shown.add(('main', 'main'))
        content = {f: x for (c, f), x in self.files.items() if c == crate}
        own = {x.name for xs in content.values() for x in xs if x.kind in ('struct', 'enum', 'union', 'trait', 'type')}
        types = {name for _, name in self.shown}
        found = []

        def cite(file, within, text, where):
            for page, name in self.cited(crate, file, within, text):
                found.append((f'{crate}: {where}', page, name))

        for file, xs in content.items():
            for item in xs:
                if item.kind == 'fn' and (file, item.name) in self.shown:
                    for clause in item.clauses:
                        cite(file, [], clause, item.name)
                elif item.kind == 'trait' and (file, item.name) in self.shown:
                    for x in item.inner:
                        for text in x.clauses + ([x.body] if x.kind == 'ghost' else []):
                            cite(file, [item], text, f'{item.name}::{x.name}')
                elif item.kind == 'impl':
                    name, is_trait = type_of(item.head), re.search(r'\bfor\b(?!\s*<)', item.head)
                    if name in own and name not in types:
                        continue
                    trait = type_of(item.head, of_trait=True) if is_trait else ''
                    if trait in own and trait not in types:
                        continue
                    for x in item.inner:
                        if x.kind == 'fn' and (x.is_public or is_trait):
                            for clause in x.clauses:
                                cite(file, [item], clause, f'{name}::{x.name}')
                        elif x.kind == 'ghost' and not (trait == 'Model' and x.name in ('view', 'invariant')):
                            cite(file, [item], x.body, f'{name}::{x.name}')
        return found

    # ---- reach

    def reach(self):
        """Each page that public clauses reach, and from where."""
        why, todo = {}, []
        for where, page, name in self.roots:
            if page not in why:
                why[page] = f'{where} names {name}'
                todo.append(page)
        while todo:
            page = todo.pop(0)
            for target, _, _ in self.pages[page].uses:
                for other in self.reached_by(target):
                    if other not in why:
                        why[other] = page
                        todo.append(other)
        return why


    def definition(self, page, name):
        """Where a name of a page is defined, if a page of these defines it."""
        for _ in range(5):
            page = self.resolved(page)
            if page not in self.pages:
                return None
            of = self.pages[page]
            if name in of.names:
                return page, of.names[name]
            if name not in of.imports:
                return None
            page, name = of.imports[name]

    def named_by(self, page, name):
        """The definitions that a definition names."""
        of = self.pages[page]
        text = of.definitions[name]
        words, found = set(WORD.findall(text)), set()
        for here, whole in of.names.items():
            if whole != name and names_it(text, words, here):
                found.add((page, whole))
        for here, (target, there) in of.imports.items():
            if names_it(text, words, here):
                found.add(self.definition(target, there))
                m = re.match(r'(\w+)\.specs\.declared\.', self.resolved(target))
                if m and (m[1], there) in self.models:
                    found |= set(self.value_definitions(m[1], there))
        for here, target in of.aliases:
            found |= {self.definition(target, name) for name in behind(here, text)}
        return found - {None}

    def value_definitions(self, crate, name):
        file, item = self.models[crate, name]
        value = [x for x in item.inner if x.kind == 'ghost' and x.name == 'Value']
        return [self.definition(p, n) for x in value for p, n in self.cited(crate, file, [item], x.body)]

    def read_roots(self):
        """The roots in what callers of the library and of the tools see."""
        handed = {(other, name) for crate, other, name in self.handed_items if crate in READ}
        for where, page, name in self.roots:
            crate, item = where.split(': ')
            if crate in READ or (crate, item.split('::')[0]) in handed:
                yield where, page, name

    def reached_definitions(self):
        """The definitions that callers of the library and of the tools read."""
        todo = [at for at in (self.definition(page, name) for _, page, name in self.read_roots()) if at]
        seen = set(todo)
        while todo:
            for other in self.named_by(*todo.pop()):
                if other not in seen:
                    seen.add(other)
                    todo.append(other)
        return seen


def type_of(head, of_trait=False):
    """The name of the type that the head of an impl is for, or of its trait."""
    head = re.sub(r'->', '', head)
    while '<' in head:
        less = re.sub(r'<[^<>]*>', '', head)
        if less == head:
            break
        head = less
    head = head.split(' where ')[0].split('{')[0]
    parts = re.split(r'\bfor\b', head)
    part = parts[0] if of_trait or len(parts) == 1 else parts[-1]
    names = re.findall(r'\w+', re.sub(r"'\w+|\b(?:mut|dyn|impl|unsafe)\b", '', part))
    return names[-1] if names else ''


def paths_of(use):
    """The paths of a `use`."""
    use = re.sub(r'\s+', '', re.sub(r'\s+as\s+\w+', '', use.strip().rstrip(';')))

    def split(prefix, text):
        m = re.match(r'((?:\w+::)*)\{(.*)\}$', text)
        if not m:
            return [prefix + text]
        parts, depth, part = [], 0, ''
        for c in m[2] + ',':
            depth += {'{': 1, '}': -1}.get(c, 0)
            if c == ',' and depth == 0:
                if part:
                    parts.append(part)
                part = ''
            else:
                part += c
        return [x for p in parts for x in split(prefix + m[1], p)]

    return split('', use)


def short(page):
    return page.split('.specs.', 1)[1]


def is_apart(page, folder=None):
    """Whether a page is in Private or Computed."""
    return page.split('.')[2] in ((folder,) if folder else ('Private', 'Computed')) and len(page.split('.')) > 3


def is_definitions(page):
    """Whether a page is one that defines something, and not one that lists others."""
    return short(page) != 'Lib' and not (short(page) in ('Private', 'Computed'))


def promising(repository):
    """The crates that promise something."""
    with_pages = {page.split('.')[0] for page in repository.pages}
    return [crate for crate in repository.crates if crate in with_pages and crate not in NO_PROMISES]


def taken(repository):
    """What the pages that callers read take from Private and Computed: {(page, page taken from): names}.

    Of a page of the library, of the tools and of the format it is what the page imports; of others, what the definitions
    name that callers read.
    """
    found = {}
    reach = repository.reach()
    for page, of in repository.pages.items():
        if is_apart(page) or page.split('.')[0] not in READ + (FORMAT,) or page not in reach:
            continue
        for target, there, here in of.uses:
            for other in repository.reached_by(target):
                if is_apart(other):
                    names = [there] if there else behind(here, of.text)
                    found.setdefault((page, other), set()).update(names)
    for page, name in repository.reached_definitions():
        if not is_apart(page):
            for other, there in repository.named_by(page, name):
                if is_apart(other):
                    found.setdefault((page, other), set()).add(there)
    return found


def listed(root):
    """What docs/FORMAT.md lists: the same."""
    text = open(os.path.join(root, 'docs', 'FORMAT.md')).read()
    if HEADING not in text:
        return {}
    found, part = {}, text.split(HEADING, 1)[1]
    part = re.split(r'^#', part, flags=re.M)[0]
    for entry in re.split(r'^- ', part, flags=re.M)[1:]:
        names = re.findall(r'`([^`]+)`', entry.split('\n\n')[0])
        if len(names) > 2:
            found[names[0], names[1]] = set(names[2:])
    return found


def unread(repository):
    """Imports that this script does not understand: then its other answers mean little."""
    def is_known(page):
        crate, part = (page.split('.') + [''])[:2]
        return (crate not in repository.crates or part != 'specs' or repository.resolved(page) in repository.pages
                or page.split('.')[2] in ('declared', 'contracts'))

    for page, of in repository.pages.items():
        if len(re.findall(r'^[ \t]*(?:pub )?use Rattle\.', of.text, re.M)) != of.imported:
            yield f'{page}: an import that this script cannot read'
        for target in sorted({target for target, _, _ in of.uses if not is_known(target)}):
            yield f'{page}: imports {target}, which is no page'
    for (crate, file), content in repository.files.items():
        for item in content + [x for y in content for x in y.inner]:
            if item.kind == 'ghost use':
                uses = uses_of('ghost use' + item.head, *GHOST_USE)
                if not uses and '{}' not in item.head:
                    yield f'{crate}/src/{file}.rt: an import that this script cannot read:{item.head}'
                for target in sorted({target for target, _, _ in uses if not is_known(target)}):
                    yield f'{crate}/src/{file}.rt: imports {target}, which is no page'


def findings(root):
    repository = Repository(root)
    reach = repository.reach()
    for crate in promising(repository):
        for page in sorted(p for p in repository.pages if p.startswith(crate + '.specs.') and is_definitions(p)):
            if not is_apart(page) and page not in reach and repository.pages[page].definitions:
                yield f'{page}: no public clause reaches it; it belongs in Private/'
            if is_apart(page, 'Private') and page in reach:
                yield f'{page}: reached by {reach[page]}; it belongs outside of Private/'
    yield from unread(repository)
    for where, page, name in sorted(set(repository.read_roots())):
        if is_apart(page):
            yield f'{where} names {name} of {page}'
    actual = {(a, b): names for (a, b), names in taken(repository).items()}
    wanted = listed(root)
    name = lambda page: page.replace('.specs.', ' ', 1)
    actual = {(name(a), name(b)): names for (a, b), names in actual.items()}
    for key in sorted(actual.keys() | wanted.keys()):
        more, less = actual.get(key, set()) - wanted.get(key, set()), wanted.get(key, set()) - actual.get(key, set())
        if more:
            yield f'{key[0]} takes {", ".join(sorted(more))} from {key[1]}, and docs/FORMAT.md does not list it'
        if less:
            yield f'docs/FORMAT.md lists {", ".join(sorted(less))} of {key[1]}, which {key[0]} does not take'


def main():
    root = os.path.dirname(os.path.dirname(os.path.abspath(__file__)))
    words = sys.argv[1:]
    if '--root' in words:
        at = words.index('--root')
        root = words[at + 1]
        del words[at:at + 2]
    if words[:1] == ['--list'] or words[:1] == ['--why']:
        repository = Repository(root)
        reach = repository.reach()
        if words[0] == '--why':
            page = words[1]
            while page in reach:
                print(page, '<-', reach[page])
                page = reach[page]
            return 0
        for crate in promising(repository):
            pages = sorted(p for p in repository.pages if p.startswith(crate + '.specs.') and is_definitions(p))
            print(crate)
            print('  reached:', ', '.join(short(p) for p in pages if p in reach) or 'none')
            print('  not reached:', ', '.join(short(p) for p in pages if p not in reach) or 'none')
        return 0
    found = list(findings(root))
    for line in found:
        print(line)
    return 1 if found else 0


if __name__ == '__main__':
    sys.exit(main())
