"""What the sources say of themselves: a sentence for each public clause, each definition and each module of specs/."""
import re

from items import says_of
from prose import MOST_WORDS, sentences
from sources import CRATES, Definition, atoms_of, roots_of
from traits import traits_of

MOST_WORDS_OF_A_CRATE = 15
COMMENT = re.compile(r'\s*(?://[/!]?|--)(?: (.*))?$')
MODULE = re.compile(r'(?:pub )?mod (\w+)')
TYPE = re.compile(r'^pub (?:struct|enum|trait) (\w+)', re.M)


def check_comments(repository):
    """Prints what no sentence says, and each sentence that is too long; returns how many there are."""
    found = [*bare_clauses(repository), *bare_ghosts(repository), *definition_faults(repository)]
    for crate in repository.crates:
        found += [*module_faults(crate), *crate_faults(crate), *type_faults(crate), *long_sentences(crate)]
    for fault in found:
        print(fault)
    return len(found)


def bare_clauses(repository):
    """The clauses of public calls with no sentence above; the docstring is that of a call's only promise."""
    for function in repository.functions:
        promises = [clause for clause in function.clauses if clause[0] == 'ensures']
        for clause in function.clauses:
            kind, name, _, comment = clause
            is_only = promises == [clause] and (function.docs or name == 'from_gives')
            if not comment and not is_only:
                yield f'{function.file}:{function.line}: no sentence above {kind} {name}'.rstrip() + f' of {function.path}'
        for field in function.promises:
            if field not in function.clauses and not field[3] and not is_law(repository, function, field):
                yield f'{field.file.path}: no sentence above the field {field[1]} of what {function.path} promises'


def is_law(repository, function, field):
    """Whether the field is a law by the name of its statement, which has a sentence of its own."""
    name = atoms_of(field[2])[0]
    if '_laws_' not in function.path or name not in field.imports and name not in field.file.by_name:
        return False
    said = repository.meaning(name, field.imports, field.file.by_name)
    return isinstance(said, Definition) and bool(said.comment)


def bare_ghosts(repository):
    """The ghosts of traits with no docstring."""
    for trait in traits_of(repository).values():
        for ghost in trait.ghosts.values():
            if not ghost.docs:
                yield f'{trait.path}:{ghost.line}: no docstring of the ghost {ghost.name} of {trait.name}'


def definition_faults(repository):
    """Definitions without a sentence, those that stand in the wrong kind of file, and files that do not say what they are about."""
    needed = set()
    for function in repository.functions:
        needed |= repository.behind(roots_of(repository, function))
    given = repository.behind(repository.given)
    for file in repository.files.values():
        if not file.says:
            yield f'{file.path}:1: it does not say what it is about'
        if not re.search(r'^-- Source: ', file.path.read_text(), re.M):
            yield f'{file.path}: it names no source'
        for one in file.definitions:
            if one.names and not one.comment:
                yield f'{file.path}:{one.line}: no sentence above {one.title()}'
            if one.names and one not in needed and one not in given and not one.is_private():
                yield f'{file.path}:{one.line}: no public contract rests on {one.title()}, and its file is not named Private..'
            if one.names and one in needed and one.is_private():
                yield f'{file.path}:{one.line}: a public contract rests on {one.title()}, which stands in a file Private..'


def module_faults(crate):
    """The modules of specs/ without a line in Lib.antt that says what a reader finds there."""
    path = CRATES / crate / 'specs' / 'Lib.antt'
    before = ''
    for number, line in enumerate(path.read_text().splitlines() if path.exists() else [], 1):
        if MODULE.match(line) and not before.startswith('--'):
            yield f'{path}:{number}: no line above {MODULE.match(line).group(1)}'
        before = line


def crate_faults(crate):
    """A crate whose root file does not say in one short sentence what it is for."""
    first = re.split(r'(?<=[.:;])\s', says_of(crate))[0]
    if not first:
        yield f'crates/{crate}: its root file does not say what it is for'
    elif len(first.split()) > MOST_WORDS_OF_A_CRATE:
        yield f'crates/{crate}: its first sentence has {len(first.split())} words, and at most {MOST_WORDS_OF_A_CRATE} are allowed'


def type_faults(crate):
    """The public types that stand in a file of another name; in crates of tests a type may stand beside its test."""
    if crate.startswith(('test_', 'rows_')):
        return
    for path in sorted((CRATES / crate / 'src').glob('*.rt')):
        for name in TYPE.findall(path.read_text()):
            own = re.sub(r'(?<!^)(?=[A-Z])', '_', name).lower()
            if path.stem != own:
                yield f'{path}: it is not named after {name}: {own}.rt'


def long_sentences(crate):
    """The sentences of comments and docstrings with more words than a document may have in one."""
    for path in sorted((CRATES / crate).glob('s*/*')):
        if path.suffix in ('.rt', '.antt'):
            for number, text in comments_of(path.read_text()):
                for sentence in sentences(text):
                    words = len(sentence.split())
                    if words > MOST_WORDS:
                        yield f'{path}:{number}: {words} words: {sentence[:60]} ..'


def comments_of(text):
    """The paragraphs of comments, each with the line that it begins in; what is indented in one is no sentence."""
    paragraph, first = [], 0
    for number, line in enumerate([*text.splitlines(), ''], 1):
        found = COMMENT.match(line)
        said = found.group(1) if found else None
        if said and not said.startswith(('#', '   ')):
            first = first if paragraph else number
            paragraph.append(said.strip())
        elif paragraph:
            yield first, ' '.join(paragraph)
            paragraph = []
