#!/usr/bin/env python3
"""Which definitions the contract of a public function rests on, in the order in which to read them.

    tools/reading.py                            lists the public functions
    tools/reading.py kmip_server::handle        prints the definitions that one of them rests on
    tools/reading.py kmip_runs::campaign safe
                                                prints the definitions that this one clause rests on
    tools/reading.py --check                    compares the documents with the code

Definitions stand in the order in which to read them: what is built on comes first. If a clause speaks of a ghost of a
trait (`L.honest`), the trait's clauses that speak of it follow. The definitions of a clause are parted in up to three
lists, each with its count: those that its conclusion rests on, those that its premises add, and those that the trait's
clauses add. Without a clause the last list is of all that the traits of the call's type parameters owe. A clause
without a name is called `requires` or `ensures`. If the only promise of a call is a record, its fields count as clauses
of the call. A method of a type that implements a trait stands for that of the trait.

Run it at the top of the repository (`make reading` does). It reads the sources alone, and proves nothing.
"""
import re
import signal
import sys

sys.dont_write_bytecode = True
signal.signal(signal.SIGPIPE, signal.SIG_DFL)

from documents import check
from items import reexports_of
from sources import CRATES, Definition, Repository, roots_of
from traits import Spoken, counted, owed_to, traits_of


def find(repository, wanted):
    """The public functions of this name: the crate and the last word are enough. A crate may show another's."""
    wanted = shown_from(repository, wanted)
    exact = [one for one in repository.functions if one.path == wanted]
    if exact:
        return exact
    crate, _, rest = wanted.partition('::')
    if '::' in rest:
        return methods_of_traits(repository, crate, *rest.split('::')[-2:])
    return [one for one in repository.functions
            if one.path.startswith(crate + '::') and one.path.endswith('::' + rest.split('::')[-1])]


def shown_from(repository, wanted):
    """The name of a call in the crate that it is made in, where the crate of the name only shows it."""
    crate, _, name = wanted.partition('::')
    for other, names in reexports_of(crate, repository.crates):
        if name.split('::')[0] in names:
            return f'{other}::{name}'
    return wanted


def methods_of_traits(repository, crate, kind, method):
    """The methods of this name of the traits that a type of the crate implements."""
    sources = '\n'.join(path.read_text() for path in sorted((CRATES / crate / 'src').glob('*.rt')))
    found = re.findall(rf'^impl(?:<(?:[^<>]|<[^<>]*>)*>)? (\w+)(?:<[^\n]*>)? for {kind}\b', sources, re.M)
    traits = [traits_of(repository)[name] for name in found if name in traits_of(repository)]
    wanted = {f'{trait.path.parts[1]}::{trait.name}::{method}' for trait in traits}
    return [one for one in repository.functions if one.path in wanted]


def print_list(repository):
    for function in repository.functions:
        clauses = ', '.join(name or kind for kind, name, _, _ in function.promises)
        print(f'{function.path}  ({clauses or "no clause"})')


def print_function(repository, function):
    print(f'{function.path}, of {function.file}')
    for line in function.docs:
        print(f'    {line}'.rstrip())
    for clause in function.clauses:
        print_clause(clause)
    things = repository.behind(roots_of(repository, function))
    print_definitions(repository, 'What it promises rests', things)
    for trait, roots in owed_to(repository, function):
        more = repository.behind(roots) - things
        things |= more
        print(f'\nWhat the methods of {trait.name} promise ({trait.path}):')
        print_promises(trait.promises)
        if repository.in_order(more):
            print_definitions(repository, f'What {trait.name} owes rests', more, 'more ')


def print_clause(clause):
    kind, name, body, comment = clause
    if comment:
        print(f'  {comment}')
    print(f'  {kind} {name + " " if name else ""}{{ {body} }}')


def print_one(repository, function, wanted):
    """Prints what one clause rests on, and returns the exit status: 1 where there is no such clause."""
    chosen = [clause for clause in [*function.promises, *function.clauses] if (clause[1] or clause[0]) == wanted][:1]
    if not chosen:
        names = ', '.join(clause[1] or clause[0] for clause in function.promises)
        print(f'{function.path} has no clause {wanted}; its clauses: {names or "none"}')
        return 1
    print(f'{function.path}, of {function.file}:{function.line}')
    for line in function.docs:
        print(f'    {line}'.rstrip())
    parts = []
    for clause in [one for one in function.clauses if one[0] == 'requires' and one not in chosen]:
        print('  (asked of the caller; its definitions are left out)')
        print_clause(clause)
    for clause in chosen:
        print_clause(clause)
        spoken = Spoken(repository, function, clause)
        parts += spoken.parts()
        for group in spoken.groups:
            print_ghosts(*group)
        if spoken.elsewhere:
            print(f'\nGhosts of traits from elsewhere: {", ".join(spoken.elsewhere)}')
    for number, (title, things) in enumerate(parts):
        print_definitions(repository, f'{title} rests', things, 'more ' if number else '')
    return 0


def print_ghosts(trait, ghosts, beside, promises):
    """The ghosts of a trait that a clause names, and what the methods of the trait promise of them."""
    print(f'\n{trait.path}: it speaks of these ghosts of {trait.name}')
    for ghost in ghosts:
        print_ghost(ghost)
    print(f'What the methods of {trait.name} promise of them:')
    print_promises(promises)
    if beside:
        print('These name other ghosts too, of which nothing more is printed:')
    for ghost in beside:
        print_ghost(ghost)


def print_promises(promises):
    for promise in promises:
        if promise.comment:
            print(f'  {promise.comment}')
        name = f'{promise.kind} {promise.name}'.strip()
        print(f'  {promise.method}, {name} {{ {promise.body} }}  (line {promise.line})')


def print_ghost(ghost):
    print(f'  {ghost.name} : {ghost.text}  (line {ghost.line})')
    for line in ghost.docs:
        print(f'      {line}')


def print_definitions(repository, title, things, more=''):
    ordered = repository.in_order(things)
    print(f'\n{title} on {counted(ordered, more)}, each below those that it is made of.')
    file = None
    for definition in ordered:
        if definition.file is not file:
            file = definition.file
            print(f'\n{file.path}: {" ".join(file.says)}')
        print(f'  {definition.title()}  (line {definition.line})')
        for line in definition.comment:
            print(f'      {line}')
    print_elsewhere(things)


def print_elsewhere(things):
    """The names that come from the code, from std and from ported crates, as their modules state them."""
    code, other = {}, {}
    for thing in things:
        if not isinstance(thing, Definition):
            module, name = thing
            declared = re.match(r'Rattle\.(\w+)\.specs\.declared\.(\w+)\.(\w+)', module)
            if declared and (CRATES / declared.group(1)).is_dir():
                crate, source, kind = declared.groups()
                item = name if kind == 'TheConstants' else kind
                code.setdefault(f'crates/{crate}/src/{source}.rt', set()).add(item)
            else:
                other.setdefault(module.removeprefix('Rattle.'), set()).add(name)
    for title, groups in ('Types and constants of the code:', code), ('From std and ported crates:', other):
        print(f'\n{title}')
        for module in sorted(groups):
            print(f'  {module}: {", ".join(sorted(groups[module]))}')


def main(words):
    repository = Repository()
    if words == ['--check']:
        return check(repository)
    if not words:
        print_list(repository)
        return 0
    found = find(repository, words[0])
    if len(found) == 1 and len(words) > 1:
        return print_one(repository, found[0], words[1])
    if len(found) == 1:
        print_function(repository, found[0])
        return 0
    print('several: ' + ', '.join(function.path for function in found) if found
          else 'no public function of this name; without a name they are listed')
    return 1


if __name__ == '__main__':
    sys.exit(main(sys.argv[1:]))
