"""The public types, traits and constants of a crate, as its sources declare them."""
import re

from sources import CRATES, imports_of

DECLARED = re.compile(r'^pub (struct|enum|trait|const|static|type) (\w+)')
MODEL = re.compile(r'^impl[^\n]* Model for (\w+)[^\n]*\{\n(.*?)^\}', re.M | re.S)
IMPLEMENTED = re.compile(r'^impl(?:<(?:[^<>]|<[^<>]*>)*>)? (\w+)(?:<[^\n]*>)? for (\w+)[^\n]*\{', re.M)
SEEN = re.compile(r'^ *ghost (Value|view|invariant) = \{ *(.*?) *\};$', re.M | re.S)


class Item:
    """A type, a trait or a constant: where it is declared, its docstring, and its declaration."""

    def __init__(self, kind, name, path, line):
        self.kind, self.name, self.path, self.line = kind, name, path, line
        self.docs, self.derived, self.text = [], '', ''
        self.implements, self.seen, self.imports = [], [], {}


def says_of(crate):
    """The first paragraph of what a crate's root file says of itself."""
    for name in 'lib.rt', 'main.rt':
        path = CRATES / crate / 'src' / name
        if path.exists():
            said = re.match(r'(?://!.+\n)*', path.read_text()).group()
            return ' '.join(line[3:].strip() for line in said.splitlines())
    return ''


def root_docs(crate):
    """All that a crate's root file says of itself, behind its first paragraph."""
    path = CRATES / crate / 'src' / 'lib.rt'
    said = re.match(r'(?://!.*\n)*', path.read_text()).group() if path.exists() else ''
    lines = [line[3:].strip() for line in said.splitlines()]
    return lines[lines.index('') + 1:] if '' in lines else []


def reexports_of(crate, crates):
    """The names that a crate hands on from other crates: each crate with its names."""
    path = CRATES / crate / 'src' / 'lib.rt'
    text = path.read_text() if path.exists() else ''
    found = re.findall(r'^pub use (\w+)::(\{[^}]*\}|\w+);', text, re.M)
    return [(other, re.findall(r'\w+', names)) for other, names in found if other in crates]


def items_of(part):
    """The public items of a crate, file by file."""
    items = []
    for path in sorted((CRATES / part.name / 'src').glob('*.rt')):
        text = path.read_text()
        found = [item for item in declared_in(path, text.splitlines()) if part.is_public(path.stem, item.name)]
        if path.stem in part.open_modules:
            for item in found:
                item.name = f'{path.stem}::{item.name}'
        items += found
    add_impls(part, items)
    return items


def declared_in(path, lines):
    for number, line in enumerate(lines):
        found = DECLARED.match(line)
        if found:
            item = Item(found.group(1), found.group(2), path, number + 1)
            read_head(item, lines, number)
            item.text = declaration_of(item.kind, lines, number)
            yield item


def read_head(item, lines, number):
    """Reads the docstring and what is derived, which stand above the declaration."""
    first = number
    while first and re.match(r'///|#\[|\)\]| {4}\w+,$', lines[first - 1]):
        first -= 1
    head = lines[first:number]
    item.docs = [line[3:].strip() for line in head if line.startswith('///')]
    derived = re.search(r'#\[derive\(([^)]*)\)', ' '.join(head))
    item.derived = ', '.join(re.findall(r'\w+', derived.group(1))) if derived else ''


def declaration_of(kind, lines, number):
    """The declaration as it is written, but for what is private in it, and for the methods of a trait."""
    if kind == 'trait':
        return lines[number].removesuffix(' {')
    last = number
    while not (lines[last].endswith(';') or lines[last] == '}' or last == number and lines[last].endswith('}')):
        last += 1
    text = lines[number:last + 1]
    if kind != 'struct':
        return '\n'.join(text)
    if len(text) == 1:
        return re.sub(r'\((?!.*\bpub\b).*\);', '(..);', text[0])
    return '\n'.join(text[:1] + public_fields(text[1:-1]) + text[-1:])


def public_fields(lines):
    """The lines of the public fields, with what stands above each; `// private` where there are others."""
    kept, above, is_private = [], [], False
    for line in lines:
        above.append(line)
        if not re.match(r'\s*(///|#\[)', line):
            if line.strip().startswith('pub '):
                kept += above
            else:
                is_private = True
            above = []
    return kept + ['    // private fields'] * is_private


def add_impls(part, items):
    """Adds to each item the traits that it implements, and how clauses see its values."""
    by_name = {item.name: item for item in items}
    for path in sorted((CRATES / part.name / 'src').glob('*.rt')):
        text = path.read_text()
        for trait, name in IMPLEMENTED.findall(text):
            if name in by_name and trait not in ('Model', 'From') and trait not in by_name[name].implements:
                by_name[name].implements.append(trait)
        for name, body in MODEL.findall(text):
            if name in by_name:
                by_name[name].seen = SEEN.findall(body)
                by_name[name].imports = dict(imports_of(text, 'ghost '), **imports_of(body, 'ghost '))
