#!/usr/bin/env python3
"""The reference: a page for each crate, made from its sources.

    tools/reference.py [FOLDER]

Run it at the top of the repository (`make reference` does). It writes index.html and a page for each crate into
the folder, out/reference unless one is named. A page has the public types, traits, functions and methods, with
their docstrings and their clauses, and the tests and drivers of rows that exercise them (exercised.py); and then
the definitions of specs/, file by file. In clauses and definitions
each word that is a definition leads to it; it goes by names, as `make reading` does. The pages need no network
and no script, and are the same whenever they are made of the same sources.
"""
import html
import pathlib
import re
import sys

sys.dont_write_bytecode = True

from exercised import Exercised
from items import items_of, reexports_of, root_docs, says_of
from markup import anchor, docstring, inline, link, linked, page, reference
from sources import CRATES, Definition, Repository
from traits import Spoken, traits_of

FOLDER = 'out/reference'
NOT_EXERCISED = 'Exercised by no test and no row'
MOST_WORDS = 3


class Reference:
    """All crates, with the place of each definition, type and trait."""

    def __init__(self, repository):
        self.repository, self.exercised = repository, Exercised(repository)
        self.items = {crate: items_of(repository.parts[crate]) for crate in repository.crates}
        self.types = {}
        for crate, items in self.items.items():
            for item in items:
                self.types.setdefault(item.name, reference(f'{crate}.html', item.name))

    def target(self, definition):
        """Where a definition stands."""
        return reference(f'{definition.file.crate}.html', f'{definition.file.path.stem}.{definition.names[0]}') \
            if definition.names else None

    def finder(self, imports, file=None, but=None):
        """What finds the place of a word, or of an operator's sign, by these `use` lines."""
        own = {} if file is None else file.by_name
        signs = {}
        for name in list(imports) + list(own):
            for sign in name.split('◌') if '◌' in name else []:
                signs.setdefault(sign, name)

        def find(token):
            name = signs.get(token, token)
            if name not in own and name not in imports:
                return None
            meant = self.repository.meaning(name, imports, own)
            if not isinstance(meant, Definition):
                return self.code_target(*meant)
            return self.target(meant) if meant is not but else None
        return find

    def code_target(self, module, name):
        """Where a type or a constant of the code stands that clauses name."""
        declared = re.match(r'Rattle\.(\w+)\.specs\.declared\.(\w+)\.(\w+)', module)
        if not declared:
            return None
        crate, source, kind = declared.groups()
        wanted = name if kind == 'TheConstants' else kind
        for item in self.items.get(crate, []):
            if item.path.stem == source and item.name.split('::')[-1] == wanted:
                return reference(f'{crate}.html', item.name)
        return None

    def type_finder(self, crate):
        """What finds the place of a type in a signature: of the crate itself first."""
        own = {item.name: reference('', item.name) for item in self.items[crate]}
        return lambda token: own.get(token) or self.types.get(token)

    def functions_of(self, crate):
        return [one for one in self.repository.functions if one.path.startswith(f'{crate}::')]


class Page:
    """The page of one crate."""

    def __init__(self, reference_, crate):
        self.whole, self.crate, self.lines = reference_, crate, []
        self.find_type = reference_.type_finder(crate)

    def add(self, *lines):
        self.lines += [line for line in lines if line]

    def text(self):
        self.add(f'<p>{link("index.html", "All crates")}</p>', f'<h1>{self.crate}</h1>',
                 f'<p>{inline(says_of(self.crate))}</p>', docstring(root_docs(self.crate)))
        for other, names in reexports_of(self.crate, self.whole.repository.crates):
            shown = ', '.join(link(self.whole.types.get(name, f'{other}.html'), name) for name in names)
            self.add(f'<p>Handed on from {link(f"{other}.html", other)}: {shown}</p>')
        files = spec_files(self.whole.repository, self.crate)
        self.contents(files)
        self.code()
        for file, says in files:
            self.spec(file, says)
        return page(self.crate, '\n'.join(self.lines))

    def contents(self, files):
        names = [item.name for item in self.whole.items[self.crate]]
        names += [function.path.split('::', 1)[1] for function in self.whole.functions_of(self.crate)
                  if owner_of(function) not in names]
        if names:
            self.add('<p>Code: ' + ', '.join(link(reference('', name), name) for name in names) + '</p>')
        if files:
            self.add('<p>Definitions: ' + ', '.join(
                link(reference('', 'specs.' + file.path.stem), file.path.stem) for file, _ in files) + '</p>')

    def code(self):
        """The types and traits, each with its methods, and then the functions."""
        functions, items = self.whole.functions_of(self.crate), self.whole.items[self.crate]
        if functions or items:
            self.add('<h2>Code</h2>')
        for item in items:
            self.item(item)
            for function in functions:
                if owner_of(function) == item.name:
                    self.function(function)
        names = {item.name for item in items}
        for function in functions:
            if owner_of(function) not in names:
                self.function(function)

    def item(self, item):
        self.add(f'<h3 id="{anchor(item.name)}">{item.kind} {html.escape(item.name)}{place(item.path, item.line)}</h3>',
                 f'<pre>{linked(item.text, lambda token: self.type_but(item, token))}</pre>', docstring(item.docs))
        if item.implements:
            shown = ', '.join(link(self.find_type(name), name) if self.find_type(name) else name for name in item.implements)
            self.add(f'<p class="rests">Implements {shown}</p>')
        if item.derived:
            self.add(f'<p class="rests">Derives {item.derived}</p>')
        find = self.whole.finder(item.imports)
        for word, text in item.seen:
            shown = linked(' '.join(text.split()), lambda token: self.found(find, token))
            self.add(f'<pre>{word} = {shown}</pre>')
        if item.kind == 'trait':
            self.ghosts(traits_of(self.whole.repository).get(item.name))

    def type_but(self, item, token):
        """Where a type stands, but for the one that is declared here."""
        return self.find_type(token) if token != item.name.split('::')[-1] else None

    def ghosts(self, trait):
        """The ghosts of a trait: what clauses say of who implements it."""
        find = self.whole.finder(trait.imports)
        for ghost in trait.ghosts.values():
            self.add(f'<h4 id="{anchor(f"{trait.name}.{ghost.name}")}">ghost {ghost.name}{place(trait.path, ghost.line)}</h4>',
                     f'<pre>{ghost.name} : {linked(ghost.text, lambda token: self.found(find, token))}</pre>',
                     docstring(ghost.docs))

    def function(self, function):
        name = function.path.split('::', 1)[1]
        self.add(f'<h3 id="{anchor(name)}">{html.escape(name)}{place(function.file, function.line)}</h3>')
        if re.search(r'\bfn ', function.signature):
            self.add(f'<pre>{linked(plain_signature(function.signature), self.find_type)}</pre>')
        self.add(docstring(function.docs))
        find = self.whole.finder(function.imports)
        for clause in function.clauses:
            self.clause(function, name, clause, find)
        if says := exercised_by(self.whole.exercised, function):
            self.add(f'<p class="rests">{html.escape(says)}</p>')

    def clause(self, function, name, clause, find):
        kind, own, body, comment = clause
        self.add(f'<div class="clause" id="{anchor(f"{name}.{clause_name(kind, own)}")}">')
        if comment:
            self.add(f'<p>{inline(comment)}</p>')
        shown = f'{kind} <b>{own}</b>' if own else kind
        self.add(f'<pre>{shown} {{ {linked(body, lambda token: self.found(find, token))} }}</pre>')
        spoken = Spoken(self.whole.repository, function, clause)
        for trait, ghosts, _, _ in spoken.groups:
            shown = ', '.join(self.ghost_link(trait, ghost) for ghost in ghosts)
            self.add(f'<p class="rests">Of {html.escape(trait.name)}: {shown}</p>')
        definitions = [one for one in spoken.definitions() if one.names]
        if definitions:
            shown = ', '.join(link(self.near(self.whole.target(one)), one.names[0]) for one in definitions)
            self.add(f'<details><summary>Definitions that it rests on: {len(definitions)}</summary>{shown}</details>')
        self.add('</div>')

    def ghost_link(self, trait, ghost):
        """A link to a ghost, where its trait is public."""
        home = self.find_type(trait.name)
        return link(f'{home}.{ghost.name}', ghost.name) if home else ghost.name

    def near(self, target):
        return target.removeprefix(f'{self.crate}.html')

    def spec(self, file, says):
        """A file of specs/, with its definitions."""
        self.add(f'<h2 id="specs.{anchor(file.path.stem)}">specs/{html.escape(file.path.stem)}{place(file.path, 1)}</h2>',
                 f'<p>{inline(says)}</p>' if says else '', f'<p>{inline(" ".join(file.says))}</p>',
                 f'<p class="rests">{html.escape(source_of(file.path))}</p>')
        for definition in file.definitions:
            if definition.names:
                self.definition(file, definition)

    def definition(self, file, definition):
        first, *more = definition.names
        marks = ''.join(f'<span id="{anchor(f"{file.path.stem}.{name}")}"></span>' for name in more)
        find = self.whole.finder(file.imports, file, definition)
        private = ' <small>private</small>' if definition.is_private() else ''
        self.add(f'<h4 id="{anchor(f"{file.path.stem}.{first}")}">{marks}{html.escape(definition.title())}'
                 f'{private}{place(file.path, definition.line)}</h4>',
                 f'<p>{inline(" ".join(definition.comment))}</p>' if definition.comment else '',
                 f'<pre>{linked(definition.text.rstrip(), lambda token: self.found(find, token))}</pre>')

    def found(self, find, token):
        target = find(token)
        return self.near(target) if target else None


def exercised_by(exercised, function):
    """Which tests and rows exercise a call; nothing of a law, of a conversion, and of what the tests have in common."""
    if re.search(r'\)$|laws::\w+$', function.path) or function.path.startswith(('test_', 'rows_')):
        return ''
    direct, kinds, rows = exercised.of(function)
    if direct:
        return 'Exercised by ' + ', '.join(direct) + said_of(rows)
    return f'Exercised through other calls, by {" and ".join(kinds)}{said_of(rows)}' if kinds else NOT_EXERCISED


def said_of(rows):
    """The words of rows from which a call is reached, the nearest first, each with how many rows have it, and one."""
    words = sorted(rows, key=lambda word: (rows[word][0], len(rows[word][1]), word))
    told = [f'{word} ({len(rows[word][1])}, as {rows[word][1][0]})' for word in words[:MOST_WORDS]]
    more = f', and {len(words) - MOST_WORDS} further words' if len(words) > MOST_WORDS else ''
    return f'. Rows with {", ".join(told)}{more}' if words else ''


def place(path, line):
    return f'<small>{html.escape(str(path).removeprefix("crates/"))}:{line}</small>'


def owner_of(function):
    """The type or trait that a method, or a conversion, belongs to."""
    owner = re.match(r'\w+::([A-Z]\w*)::', function.path)
    return owner.group(1) if owner else None


def clause_name(kind, own):
    """A clause's name in a link; what is asked may have the name of what is promised."""
    return own or kind if kind == 'ensures' or not own else f'{kind}.{own}'


def plain_signature(signature):
    """The signature in one line, without what opens the body."""
    text = re.sub(r'\s*(\{\}?|;)\s*$', '', ' '.join(signature.split()))
    return re.sub(r',? \)', ')', text.replace('( ', '('))


def source_of(path):
    """The line that says what the file's definitions are taken from, with the lines that continue it."""
    found = re.search(r'^-- (Source:.*(?:\n-- ?.*)*)', path.read_text(), re.M)
    return re.sub(r'\n-- ?', ' ', found.group(1)) if found else ''


def spec_files(repository, crate):
    """The files of specs/ as its Lib.antt lists them, each with the comment above its line there, or behind it."""
    files = {file.path.stem: file for file in repository.files.values() if file.crate == crate}
    lib, listed, says = CRATES / crate / 'specs' / 'Lib.antt', [], []
    for line in lib.read_text().splitlines() if lib.exists() else []:
        module = re.match(r'(?:pub )?mod (\w+)(?: +-- *(.*))?', line)
        if line.startswith('--'):
            says.append(line[2:].strip())
            continue
        if module and module.group(1) in files:
            listed.append((files.pop(module.group(1)), ' '.join(says) or module.group(2) or ''))
        says = []
    return listed + [(files[name], '') for name in sorted(files)]


def index(whole):
    """The first page: a line for each crate, and the public calls that nothing is said of, or that nothing exercises."""
    rows = [f'<tr><td>{link(f"{crate}.html", crate)}</td><td>{inline(says_of(crate))}</td></tr>'
            for crate in whole.repository.crates]
    bare = [function.path for function in whole.repository.functions if not function.docs and not function.clauses]
    lines = ['<h1>Reference</h1>', '<p>The crates, lowest first. Each page is made from the sources.</p>',
             '<table>', *rows, '</table>', '<h2>Public calls with neither a docstring nor a clause</h2>']
    lines += [call_link(path) for path in bare]
    lines += ['<p>None.</p>'] * (not bare) + ['<h2>Public calls that no test and no row exercises</h2>']
    lacking = [function.path for function in whole.repository.functions if exercised_by(whole.exercised, function) == NOT_EXERCISED]
    lines += [call_link(path) for path in lacking] + ['<p>None.</p>'] * (not lacking)
    return page('Reference', '\n'.join(lines))


def call_link(path):
    return f'<p>{link(reference(path.split("::")[0] + ".html", path.split("::", 1)[1]), path)}</p>'


def write(folder):
    """Writes the pages, takes away those of crates that are gone, and returns how many there are."""
    whole = Reference(Repository())
    pages = {f'{crate}.html': Page(whole, crate).text() for crate in whole.repository.crates}
    pages['index.html'] = index(whole)
    folder.mkdir(parents=True, exist_ok=True)
    for old in folder.glob('*.html'):
        if old.name not in pages:
            old.unlink()
    for name, text in pages.items():
        (folder / name).write_text(text)
    return len(pages)


def main(words):
    folder = pathlib.Path(words[0] if words else FOLDER)
    print(f'{write(folder)} pages, from {folder}/index.html on')
    return 0


if __name__ == '__main__':
    sys.exit(main(sys.argv[1:]))
