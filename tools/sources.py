"""The definitions and the public functions of the crates, read from their sources as `rt fmt` lays them out.

A name in a clause is looked up in the file's `ghost use` lines, then in the file of crates/*/specs that it
comes from, and so on through the `use` lines, until a name comes from the code, from std or from a ported
crate.
"""
import pathlib
import re

CRATES = pathlib.Path('crates')
WORD = re.compile(r"(?<![\w.'-])[A-Za-z_][\w']*(?:-[A-Za-z_]\w*)*")
RECORD_FIELD = re.compile(r'([{;]\s*)\w+ =(?!=)')
RECORD = re.compile(r'(?:pub )?record \S+(.*) : Type \d+ where\n')


class Definition:
    """A definition of specs/, or several that name each other."""

    def __init__(self, file, line, comment):
        self.file, self.line, self.comment = file, line, comment
        self.names, self.constructors, self.text = [], [], ''
        self.uses = set()

    def title(self):
        return ', '.join(self.names)

    def is_private(self):
        return self.file.is_private


class SpecFile:
    """A file of specs/: its definitions by name, and what its `use` lines bring in."""

    def __init__(self, crate, path):
        self.crate, self.path = crate, path
        lines = path.read_text().splitlines()
        self.says = self.first_comment(lines)
        self.is_private = path.stem.startswith('Private')
        self.imports = imports_of('\n'.join(lines), '')
        self.definitions, self.by_name = [], {}
        self.read(lines)

    @staticmethod
    def first_comment(lines):
        """What the file says of itself, without its sources."""
        says = []
        for line in lines:
            if not line.startswith('--') or line.startswith('-- Source'):
                return says
            if line.startswith('--     '):
                continue
            says.append(line[2:].strip())
        return says

    def read(self, lines):
        comment, current, is_group = [], None, False
        for number, line in enumerate(lines, 1):
            if re.match(r'use |infix|pub mod |mod ', line):
                comment, current = [], None
                continue
            if line.startswith('--'):
                if current is not None:
                    comment, current = [], None
                comment.append(line[2:].strip())
                continue
            if not line.strip():
                if current is None:
                    comment = []
                continue
            head = re.match(r'(?:(?:abbrev|unfoldable) )?(?:pub )?(?:(data|record) )?([^\s:({]+)(?: [:({]|$)', line)
            if re.match(r'(?:(?:abbrev|unfoldable) )?mutual\s*$', line):
                current, is_group = self.add(number, comment), True
            elif line.startswith(' '):
                if current is not None:
                    self.member(current, line, is_group)
            elif head and (head.group(1) or re.match(r'(?:(?:abbrev|unfoldable) )?(?:pub )?[^\s:]+ : ', line)):
                current, is_group = self.add(number, comment), False
                self.name(current, head.group(2))
            if current is not None:
                current.text += line + '\n'

    def add(self, number, comment):
        taken = any(one.comment is comment for one in self.definitions)
        definition = Definition(self, number, [] if taken else comment)
        self.definitions.append(definition)
        return definition

    def name(self, definition, name):
        definition.names.append(name)
        self.by_name[name] = definition

    def member(self, current, line, is_group):
        if line.lstrip().startswith('--'):
            if not current.comment:
                current.comment = [line.strip()[2:].strip()]
            return
        inside = re.match(r'  (?:pub )?(?:data |record )?([^\s:({]+)(?: [:({]|\s*$)', line)
        if is_group and not line.startswith('   ') and inside:
            is_head = re.match(r'  (?:pub )?(?:(?:data|record) \S+|[^\s:]+ : )', line)
            if is_head and inside.group(1) not in current.names:
                self.name(current, inside.group(1))
        elif re.search(r'\bdata\b', current.text):
            names = re.match(r'\s+([a-z_][\w ]*?) : ', line)
            for name in names.group(1).split() if names else []:
                if name != 'pub':
                    current.constructors.append(name)
                    self.by_name[name] = current


def imports_of(text, keyword):
    """Each name that the `use` lines bring in, with the module and the name that it stands for there."""
    found = {}
    pattern = re.compile(r'^[ \t]*' + keyword + r'use (Rattle[\w.-]*?)(?:\.\{([^}]*)\}|( as (\w+)))?;?$', re.M)
    for module, names, renamed, alias in pattern.findall(text):
        if alias:
            found[alias] = (module, None)
        for name in names.replace('\n', ' ').split(',') if names else []:
            name = name.strip()
            if name:
                own, _, new = name.partition(' as ')
                found[new or own] = (module, own)
    return found


def words_of(text, names):
    """Those of the names that stand in the text; an operator stands there by its signs."""
    text = re.sub(r'--.*', '', text)
    text = RECORD_FIELD.sub(r'\1', text)
    present = set(WORD.findall(text))
    for name in names:
        if name in present:
            yield name
        elif '◌' in name:
            signs = [sign for sign in name.split('◌') if sign]
            if all(sign in text for sign in signs) or (signs == ['>>='] and re.search(r'\bdo\b', text)):
                yield name


class Repository:
    """All crates: their definitions, and their public functions."""

    def __init__(self):
        self.files, self.functions, self.models, self.views = {}, [], {}, {}
        self.given = set()
        self.traits, self.parts = None, {}
        self.crates = [line.split(':')[0].strip() for line in pathlib.Path('crates.txt').read_text().splitlines()
                       if ':' in line and not line.startswith('#')]
        for crate in self.crates:
            for path in sorted((CRATES / crate / 'specs').glob('*.antt')):
                if path.stem != 'Lib':
                    self.files[f'Rattle.{crate}.specs.{path.stem}'] = SpecFile(crate, path)
        self.order = self.files_in_order()
        for file in self.files.values():
            for definition in file.definitions:
                definition.uses = self.resolve(definition.text, file.imports, file) - {definition}
        for crate in self.crates:
            self.parts[crate] = Crate(crate, self)
            self.functions += self.parts[crate].functions
        for function in self.functions:
            function.promises = self.opened(function.clauses, function.imports)

    def files_in_order(self):
        """The files of specs/, each after those that it uses."""
        order = []

        def visit(module):
            if module in self.files and module not in order:
                for used, _ in self.files[module].imports.values():
                    if used != module:
                        visit(used)
                order.append(module)

        for crate in self.crates:
            for module in sorted(module for module in self.files if self.files[module].crate == crate):
                visit(module)
        return order

    def resolve(self, text, imports, file=None):
        """What the names of a text stand for: definitions, and names from elsewhere."""
        own = {} if file is None else file.by_name
        return {self.meaning(name, imports, own) for name in words_of(text, list(own) + list(imports))}

    def meaning(self, name, imports, own):
        """What a name stands for that is the file's own or that its `use` lines bring in."""
        if name in own:
            return own[name]
        module, original = imports[name]
        home = self.files.get(module)
        return home.by_name[original] if home and original in home.by_name else (module, original or '')

    def opened(self, clauses, imports):
        """The clauses, where the only promise of a call is a record: its fields in the place of it."""
        promises = [clause for clause in clauses if clause[0] == 'ensures']
        fields = self.fields_behind(promises[0][2], imports, None) if len(promises) == 1 else []
        return [clause for clause in clauses if clause[0] == 'requires'] + fields if fields else clauses

    def fields_behind(self, body, imports, file):
        """The fields of the record that a text applies, as clauses; those of a record of the same file are opened.

        There are none where a field speaks of one before it: such a record says that something is there.
        """
        head, *given = atoms_of(body)
        own = {} if file is None else file.by_name
        record = self.meaning(head, imports, own) if head in own or head in imports else None
        opened = RECORD.match(record.text) if isinstance(record, Definition) else None
        asked = parameters_of(opened.group(1)) if opened else []
        if not opened or len(asked) != len(given):
            return []
        found, known, fields = [], dict(imports, **record.file.imports), fields_of(record.text[opened.end():])
        words = set().union(*(WORD.findall(kind) for _, kind, _ in fields))
        if any(name in words for name, _, _ in fields):
            return []
        for name, kind, comment in fields:
            said = applied(kind, dict(zip(asked, given)))
            *premises, last = arrows_of(said)
            inner = atoms_of(last)[0] in record.file.by_name and self.fields_behind(last, known, record.file)
            for field in inner or [Field(name, last, comment)]:
                field.stands_in(record.file, known)
                found.append(field.after(premises))
        return found

    def behind(self, roots):
        """All that the roots are made of, the roots included."""
        seen, waiting = set(), list(roots)
        while waiting:
            thing = waiting.pop()
            if thing not in seen:
                seen.add(thing)
                if isinstance(thing, Definition):
                    waiting += thing.uses
        return seen

    def in_order(self, things):
        """The definitions among these, each after those that it is made of."""
        definitions = [thing for thing in things if isinstance(thing, Definition)]
        place = {module: number for number, module in enumerate(self.order)}
        module_of = {id(file): module for module, file in self.files.items()}
        return sorted(definitions, key=lambda one: (place[module_of[id(one.file)]], one.line))


class Field(tuple):
    """A field of a record that is the only promise of a call, as a clause; the file of the record, and its names."""

    file, imports = None, None

    def __new__(cls, name, body, comment):
        return super().__new__(cls, ('ensures', name, body, comment))

    def stands_in(self, file, imports):
        if self.file is None:
            self.file, self.imports = file, imports

    def after(self, premises):
        """The same, where something is asked first."""
        field = Field(self[1], ' → '.join([*premises, self[2]]), self[3])
        field.file, field.imports = self.file, self.imports
        return field


def atoms_of(text):
    """The words and the groups in signs of a text, one by one."""
    found, depth = [''], 0
    for sign in text.strip():
        depth += (sign in '({[') - (sign in ')}]')
        if sign.isspace() and not depth:
            found.append('')
        else:
            found[-1] += sign
    return [one for one in found if one] or ['']


def arrows_of(text):
    """The parts of a text between its outermost arrows."""
    found = ['']
    for atom in atoms_of(text):
        if atom == '→':
            found.append('')
        else:
            found[-1] += (' ' if found[-1] else '') + atom
    return found


def parameters_of(header):
    """The names of those parameters of a record that are written where it is applied."""
    groups = [atom for atom in atoms_of(header) if atom.startswith('(')]
    return [name for group in groups for name in group[1:].split(' : ')[0].split()]


def applied(text, given):
    """The text with these in the place of the names."""
    return WORD.sub(lambda word: given.get(word.group(), word.group()), text)


def fields_of(text):
    """The fields of a record: the name, the type and the sentences above."""
    found, comment = [], []
    for line in text.splitlines():
        head = re.match(r'  (?:pub )?(\w+) : (.*)', line)
        if line.startswith('  --'):
            comment.append(line.strip()[2:].strip())
        elif head:
            found.append([head.group(1), head.group(2), ' '.join(comment)])
            comment = []
        elif found and line.startswith('   '):
            found[-1][1] += ' ' + line.strip()
    return found


class Function:
    """A public function, its clauses, and what they name; its line, and the block that it stands in."""

    def __init__(self, path, file, docs, clauses, roots, types):
        self.path, self.file, self.docs = path, file, docs
        self.clauses, self.roots, self.types = clauses, roots, types
        self.promises = clauses
        self.signature, self.imports, self.owner, self.header, self.line = '', {}, '', '', 0


class Crate:
    """The public functions of a crate, by the re-exports of its root file."""

    def __init__(self, name, repository):
        self.name, self.repository, self.functions = name, repository, []
        self.exported, self.open_modules = set(), set()
        source = CRATES / name / 'src'
        root = source / 'lib.rt'
        if not root.exists():
            return
        text = root.read_text()
        self.open_modules = set(re.findall(r'^pub mod (\w+);', text, re.M))
        for module, names in re.findall(r'^pub use (\w+)::(\{[^}]*\}|\w+);', text, re.M):
            self.exported |= {(module, one) for one in re.findall(r'\w+', names)}
        for path in sorted(source.glob('*.rt')):
            self.read(path)

    def is_public(self, module, name):
        return module == 'lib' or module in self.open_modules or (module, name) in self.exported

    def read(self, path):
        text, module = path.read_text(), path.stem
        imports = imports_of(text, 'ghost ')
        lines = text.splitlines()
        self.read_models(text, imports)
        self.read_given(text, imports)
        number, docs, owner, is_trait, ghosts, self.header = 0, [], None, False, '', ''
        while number < len(lines):
            line = lines[number]
            opened = re.match(r'(impl|pub trait|pub\(crate\) trait|trait)\b(.*)\{$', line)
            if opened:
                is_trait = 'trait' in opened.group(1)
                owner = self.owner_of(opened, module, is_trait)
                ghosts, self.header = '', line
            elif line == '}':
                owner, is_trait, ghosts, self.header = None, False, '', ''
            if re.match(r'\s*///', line):
                docs.append(line.strip()[3:].strip())
            elif re.match(r'\s*ghost \w+:', line) and is_trait:
                ghosts += line
            elif owner and re.match(r'\s*ghost from_gives = ', line):
                conversion = f'{owner[0]}::from({owner[1]})' if owner[1] else None
                if conversion:
                    gives = line.split(' = ', 1)[1].strip('{}; ')
                    self.add(conversion, path, docs, [('ensures', 'from_gives', gives, '')], imports, '')
            start = re.match(r'(\s*)(pub )?(?:pub\(crate\) )?(?:const )?fn (\w+)', line)
            self.line = number + 1
            if start:
                number, signature, clauses = self.contract(lines, number)
                public = start.group(2) or (is_trait and owner)
                if owner and owner[1] is None and public:
                    self.add(f'{owner[0]}::{start.group(3)}', path, docs, clauses, imports, signature, owner[0], ghosts)
                elif not start.group(1) and public and self.is_public(module, start.group(3)):
                    within = f'{module}::' if module in self.open_modules and module != 'lib' else ''
                    self.add(within + start.group(3), path, docs, clauses, imports, signature)
            if not re.match(r'\s*(///|#\[)', line):
                docs = []
            number += 1

    def read_models(self, text, imports):
        """Reads how clauses see the values of the types."""
        for header, name, body in re.findall(r'^(impl[^\n]* Model for (\w+)[^\n]*)\{\n(.*?)^\}', text, re.M | re.S):
            local = dict(imports, **imports_of(body, 'ghost '))
            seen = ' '.join(re.findall(r'ghost (?:Value|view) = (\{.*?\});', body, re.S))
            self.repository.models[name] = self.repository.resolve(seen, local)
            self.repository.views[name] = header, seen

    def read_given(self, text, imports):
        """Reads the definitions that public types give for ghosts of traits, each as one word."""
        for name, body in re.findall(r'^impl[^\n]* for (\w+)[^\n]*\{\n(.*?)^\}', text, re.M | re.S):
            if any(one == name for _, one in self.exported):
                local = dict(imports, **imports_of(body, 'ghost '))
                self.repository.given |= self.repository.resolve(' '.join(re.findall(r'ghost \w+ = \{ (\w+) \};', body)), local)

    def owner_of(self, opened, module, is_trait):
        """The type or trait that a block belongs to, and what it converts from; none if it is not public."""
        kind, rest = opened.groups()
        rest = re.sub(r'^<(?:[^<>]|<[^<>]*>)*>', '', rest).strip()
        conversion = re.match(r'From<(.*)> for (\w+)', rest)
        if conversion:
            return (conversion.group(2), conversion.group(1)) if self.is_public(module, conversion.group(2)) else None
        if not is_trait and ' for ' in rest:
            return None
        name = re.match(r'\w+', rest).group()
        if is_trait and not kind.startswith('pub trait'):
            return None
        return (name, None) if any(one == name for _, one in self.exported) else None

    @staticmethod
    def contract(lines, number):
        """The signature of the function at this line, and its clauses with the comments above them."""
        signature, clauses, comment = '', [], ''
        first = number
        while True:
            line = lines[number].strip()
            clause = re.match(r'(requires|ensures)\s*(\w*)\s*\{', line)
            if clause:
                text = line
                while text.count('{') != text.count('}'):
                    number += 1
                    text += ' ' + lines[number].strip()
                ends = text.endswith(';')
                body = text[text.index('{') + 1:text.rindex('}')].strip()
                clauses.append((clause.group(1), clause.group(2), body, comment))
                comment = ''
                if ends:
                    break
            elif line.startswith('//'):
                comment = (comment + ' ' + line[2:].strip()).strip()
            elif clauses and line.startswith('{'):
                break
            else:
                signature += line + ' '
                if line.endswith('{') or line.endswith('{}') or line.endswith(';'):
                    break
            number += 1
        return (number if number > first else first), signature, clauses

    def add(self, name, path, docs, clauses, imports, signature, owner='', ghosts=''):
        text, seen = ' '.join(body for _, _, body, _ in clauses), signature + ghosts
        roots = self.repository.resolve(text, imports)
        if 'stock:' in seen or ': Records' in seen:
            roots |= self.repository.resolve('Stock', imports)
        types = set(re.findall(r'\w+', seen)) | {owner}
        function = Function(f'{self.name}::{name}', path, list(docs), clauses, roots, types)
        function.signature, function.imports, function.owner = signature, imports, owner
        function.header, function.line = self.header, self.line
        self.functions.append(function)


def roots_of(repository, function):
    """What the clauses name, and how the types of the signature are seen."""
    roots = set(function.roots)
    for name in function.types:
        roots |= repository.models.get(name, set())
    return roots
