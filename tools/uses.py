"""The `use` lines over specs/ that lead nowhere: to no file, to no definition of it, or to a type that its file does not have."""
import re

from sources import CRATES

SPEC = re.compile(r'\buse Rattle\.(\w+)\.specs\.([A-Z]\w*)(?:\.\{([^}]*)\})?')
DECLARED = re.compile(r'\bRattle\.(\w+)\.specs\.declared\.(\w+)\.(\w+)')
NO_TYPE = 'TheConstants'


def check_uses(repository):
    """Prints each of them, and returns how many there are."""
    faults = [fault for path in sources() for fault in faults_of(path, repository)]
    for fault in faults:
        print(fault)
    return len(faults)


def sources():
    return [path for path in sorted(CRATES.rglob('*')) if path.suffix in ('.rt', '.antt') and 'out' not in path.parts]


def faults_of(path, repository):
    text = path.read_text()
    for crate, module, names in SPEC.findall(text):
        file = repository.files.get(f'Rattle.{crate}.specs.{module}')
        if file:
            yield from (f'{path}: {crate} has no {name} in specs/{module}' for name in names_of(names) if not stands_in(file, name))
        elif crate in repository.crates:
            yield f'{path}: {crate} has no specs/{module}'
    for crate, module, name in sorted(set(DECLARED.findall(text))):
        if crate in repository.crates and not declares(CRATES / crate / 'src' / f'{module}.rt', name):
            yield f'{path}: {crate} has no {name} in src/{module}.rt'


def names_of(names):
    """The names of a group, as their file has them."""
    return [name.split(' as ')[0].strip() for name in names.replace('\n', ' ').split(',') if name.strip()]


def stands_in(file, name):
    """Whether it is a definition of the file, or a constructor or a field in one."""
    return name in file.by_name or any(name in definition.text for definition in file.definitions)


def declares(path, name):
    return path.exists() and (name == NO_TYPE or bool(re.search(rf'\b(?:struct|enum|trait) {name}\b', path.read_text())))
