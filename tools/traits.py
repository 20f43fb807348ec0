"""The ghosts of the traits: what a clause such as `L.honest` speaks of, and what the trait promises of it."""
import re

from sources import CRATES, RECORD, WORD, Crate, Definition, Field, arrows_of, fields_of, imports_of

TRAIT = re.compile(r'^(?:pub |pub\(crate\) )?trait (\w+)[^\n]*\{\n(.*?)^\}', re.M | re.S)
GHOST = re.compile(r'^((?: *///[^\n]*\n)*) *ghost (\w+): \{ *(.*?) *\};', re.M | re.S)
BOUND = re.compile(r'\b([A-Z]\w*)\s*:\s*([A-Z]\w*(?:\s*\+\s*[A-Z]\w*)*)')
PROJECTION = re.compile(r'(?<![\w.])([A-Z]\w*)\.([A-Za-z]\w*)')


class Ghost:
    """A ghost of a trait: its type, its docstring and its line."""

    def __init__(self, trait, name, text, docs, line):
        self.trait, self.name, self.text, self.docs, self.line = trait, name, text, docs, line

    def is_predicate(self):
        return re.search(r'\bType\b[^→]*$', self.text) is not None


class Promise:
    """A clause of a method of a trait."""

    def __init__(self, method, kind, name, body, comment, line, field=None):
        self.method, self.kind, self.name, self.body = method, kind, name, body
        self.comment, self.line, self.field = comment, line, field

    def clause(self):
        return self.kind, self.name, self.body, self.comment

    def words(self):
        return words_and_fields(self.body)


class Trait:
    """A trait: its ghosts by name, and the clauses of its methods."""

    def __init__(self, path, name, text, first, imports):
        self.path, self.name, self.imports = path, name, imports
        self.ghosts, self.promises, self.fields = {}, [], {}
        for found in GHOST.finditer(text):
            docs = [line.strip()[3:].strip() for line in found.group(1).splitlines()]
            line = first + text[:found.start(2)].count('\n')
            body = ' '.join(found.group(3).split())
            self.ghosts[found.group(2)] = Ghost(self, found.group(2), body, docs, line)
        lines, number = text.splitlines(), 0
        while number < len(lines):
            start = re.match(r'\s*fn (\w+)', lines[number])
            if start:
                begun = number
                number, _, clauses = Crate.contract(lines, number)
                self.add(start.group(1), clauses, lines[begun:number + 1], first + begun)
            number += 1

    def add(self, method, clauses, lines, first):
        places = [first + number for number, line in enumerate(lines)
                  if re.match(r'\s*(requires|ensures)\b', line)]
        for (kind, name, body, comment), line in zip(clauses, places):
            self.promises.append(Promise(method, kind, name, body, comment, line))

    def open(self, repository):
        """Takes the fields of a ghost that is a record for ghosts too, and those of a method's only promise for clauses."""
        for ghost in list(self.ghosts.values()):
            record = next(iter(repository.resolve(ghost.text.rpartition('→')[2], self.imports)), None)
            opened = RECORD.match(record.text) if isinstance(record, Definition) else None
            if opened:
                fields = fields_of(record.text[opened.end():])
                self.fields[ghost.name] = record, [name for name, _, _ in fields]
                for name, kind, comment in fields:
                    self.ghosts[name] = Ghost(self, name, kind, [comment], ghost.line)
        methods, promises = {}, []
        for promise in self.promises:
            methods.setdefault(promise.method, []).append(promise)
        for method, own in methods.items():
            opened = repository.opened([promise.clause() for promise in own], self.imports)
            promises += own if len(opened) == len(own) else [
                Promise(method, *field, own[-1].line, field) for field in opened if field[0] == 'ensures']
        self.promises = promises

    def named_in(self, words):
        return [ghost for name, ghost in self.ghosts.items() if name in words]

    def promised_of(self, ghosts):
        """The clauses that speak of one of these.

        Where a predicate is among them, those are left out that speak of the values under another predicate alone:
        what is promised of a calm link is not needed for what has happened over one that is honest.
        """
        predicates = [ghost for ghost in ghosts if ghost.is_predicate()]
        chosen = []
        for promise in self.promises:
            spoken = self.named_in(promise.words())
            others = predicates and [ghost for ghost in spoken if ghost.is_predicate() and ghost not in predicates]
            if any(ghost in predicates for ghost in spoken) or \
                    any(ghost in ghosts for ghost in spoken) and not others:
                chosen.append(promise)
        return chosen


def traits_of(repository):
    """All traits of the crates, each by its name; they are read once."""
    if repository.traits is None:
        repository.traits = {}
        for crate in repository.crates:
            for path in sorted((CRATES / crate / 'src').glob('*.rt')):
                for trait in traits_in(path):
                    repository.traits.setdefault(trait.name, trait)
        for trait in repository.traits.values():
            trait.open(repository)
    return repository.traits


def traits_in(path):
    text = path.read_text()
    for found in TRAIT.finditer(text):
        first = text[:found.start(2)].count('\n') + 1
        yield Trait(path, found.group(1), found.group(2), first, imports_of(text, 'ghost '))


class Spoken:
    """What one clause of a function speaks of, and the ghosts of traits with what is promised of them.

    `promised` has the roots of its conclusion, `asked` those of its premises, and `owed` those of what the traits
    promise of their ghosts. `roots` has all of them.
    """

    def __init__(self, repository, function, clause):
        self.repository, self.groups, self.elsewhere = repository, [], []
        body, types = clause[2], types_seen(function, clause[2])
        *premises, conclusion = arrows_of(body)
        self.promised = self.roots_of(function, clause, conclusion)
        self.asked = self.roots_of(function, clause, ' → '.join(premises)) if premises else set()
        self.premises, self.roots, self.owed = premises, self.promised | self.asked, set()
        traits, texts = traits_of(repository), [(function.header + ' ' + generics_of(function.signature), body)]
        texts += [repository.views[name] for name in sorted(types) if name in repository.views]
        for name, ghosts in self.ghosts_in(function, texts, traits).items():
            trait = traits[name]
            self.follow(trait, [trait.ghosts[one] for ghost in ghosts for one in self.seen_of(trait, ghost, body)])
        self.roots |= self.owed

    def roots_of(self, function, clause, body):
        """What a part of the clause names, and how the types of what it names are seen."""
        roots = resolved(self.repository, body, function.imports, clause)
        for name in types_seen(function, body):
            roots |= self.repository.models.get(name, set())
        return roots

    def parts(self):
        """The three lists: each with what it is of, and its definitions that stand in no list before it."""
        owing = ', '.join(trait.name for trait, *_ in self.groups)
        named = [('What is promised', self.promised), ('What its premises say', self.asked),
                 (f'What the methods of {owing} owe', self.owed)]
        seen = set()
        for title, roots in named:
            things = self.repository.behind(roots) - seen
            seen |= things
            if roots and (title == named[0][0] or any(isinstance(thing, Definition) for thing in things)):
                yield title, things

    def seen_of(self, trait, ghost, body):
        """The ghost; where it is a record, those of its fields that the clause and its definitions speak of."""
        if ghost not in trait.fields:
            return [ghost]
        record, fields = trait.fields[ghost]
        texts = [one.text for one in self.repository.behind(self.roots)
                 if isinstance(one, Definition) and record in one.uses]
        spoken = set().union(*(words_and_fields(text) for text in [body, *texts]))
        return [field for field in fields if field in spoken] or [ghost]

    def ghosts_in(self, function, texts, traits):
        """The ghosts that these texts name, by trait: as `L.honest` for an `L` that is a `Link`, or bare in the trait."""
        found = {}
        for header, text in texts:
            bounds = bounds_of(header)
            for parameter, ghost in PROJECTION.findall(text):
                homes = [name for name in bounds.get(parameter, []) if name in traits and ghost in traits[name].ghosts]
                for name in homes:
                    found.setdefault(name, {})[ghost] = True
                if parameter in bounds and not homes:
                    self.elsewhere.append(f'{parameter}.{ghost} of {" + ".join(bounds[parameter])}')
        if function.owner in traits:
            for ghost in traits[function.owner].named_in(set(WORD.findall(texts[0][1]))):
                found.setdefault(function.owner, {})[ghost.name] = True
        self.elsewhere = sorted(set(self.elsewhere))
        return found

    def follow(self, trait, ghosts):
        promises = trait.promised_of(ghosts)
        spoken = set().union(*(promise.words() for promise in promises)) if promises else set()
        beside = [ghost for ghost in trait.named_in(spoken) if ghost not in ghosts and ghost.name not in trait.fields]
        for promise in promises:
            self.owed |= resolved(self.repository, promise.body, trait.imports, promise.field)
        for ghost in ghosts + beside:
            self.owed |= self.repository.resolve(ghost.text, self.imports_of(trait, ghost))
        self.groups.append((trait, ghosts, beside, promises))

    @staticmethod
    def imports_of(trait, ghost):
        """What the words of a ghost stand for: those of a field, where it is one of a record."""
        homes = [record.file.imports for record, fields in trait.fields.values() if ghost.name in fields]
        return homes[0] if homes else trait.imports

    def definitions(self):
        things = self.repository.behind(self.roots)
        return self.repository.in_order([thing for thing in things if isinstance(thing, Definition)])


def counted(definitions, more=''):
    """How many definitions these are, and how many lines they have without the comments above them."""
    lines = sum(len(one.text.strip().splitlines()) for one in definitions)
    return f'{len(definitions)} {more}definition{"s" * (len(definitions) != 1)} ({lines} line{"s" * (lines != 1)})'


def owed_to(repository, function):
    """What the traits of a function's type parameters owe: each trait, and the roots of its clauses and ghosts."""
    traits, found = traits_of(repository), []
    bounds = bounds_of(function.header + ' ' + generics_of(function.signature))
    for name in dict.fromkeys(name for names in bounds.values() for name in names):
        if name in traits:
            trait, roots = traits[name], set()
            for promise in trait.promises:
                roots |= resolved(repository, promise.body, trait.imports, promise.field)
            for ghost in trait.ghosts.values():
                roots |= repository.resolve(ghost.text, Spoken.imports_of(trait, ghost))
            found.append((trait, roots))
    return found


def words_and_fields(text):
    """The words of a text, and the fields that it takes."""
    text = re.sub(r'--.*', '', text)
    return set(WORD.findall(text)) | set(re.findall(r'\.([a-z]\w*)', text))


def resolved(repository, body, imports, clause):
    """What the words of a clause stand for; those of a field where its record stands."""
    field = isinstance(clause, Field)
    return repository.resolve(body, clause.imports if field else imports, clause.file if field else None)


def bounds_of(header):
    """The traits of each type parameter."""
    bounds = {}
    for parameter, names in BOUND.findall(header):
        bounds.setdefault(parameter, []).extend(re.findall(r'\w+', names))
    return bounds


def balanced(text, start, signs):
    """The text between the sign at this place and the one that closes it."""
    depth = 0
    for place in range(start, len(text)):
        if text[place] == signs[0]:
            depth += 1
        elif text[place] == signs[1] and text[place - 1] != '-':
            depth -= 1
            if not depth:
                return text[start + 1:place]
    return text[start + 1:]


def generics_of(signature):
    named = re.search(r'\bfn \w+', signature)
    return balanced(signature, named.end(), '<>') if named and signature[named.end():named.end() + 1] == '<' else ''


def types_seen(function, body):
    """The types of those parameters that the clause names, and of the result where it names it."""
    named = re.search(r'\bfn \w+', function.signature)
    if not named:
        return set()
    start = function.signature.index('(', named.end() + len(generics_of(function.signature)))
    inside = balanced(function.signature, start, '()')
    words, seen = set(WORD.findall(re.sub(r'\.\w+', '', body))), set()
    for name, kind in re.findall(r'(\w+)\s*:\s*(.*?)(?=,\s*\w+\s*:|$)', inside):
        if name in words:
            seen |= set(re.findall(r'\w+', kind))
    if 'self' in words:
        seen.add(function.owner)
    if 'result' in words:
        seen |= set(re.findall(r'\w+', function.signature[start + len(inside):]))
    if 'Self' in seen:
        seen.add(function.owner)
    return seen
