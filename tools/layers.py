#!/usr/bin/env python3
"""The layers of the crates, and a line for each crate, from crates.txt and the crates' sources.

    tools/layers.py            writes the made part of docs/ARCHITECTURE.md
    tools/layers.py --check    says whether it is up to date; the exit status is 1 if it is not

Run it at the top of the repository. crates.txt says which crates make a layer: a line `## TITLE: what it has`
begins one, and the last one is the tests. A crate has a check mark if a function of its src/ has a clause `ensures`.
Its line is the first sentence of its lib.rt (or main.rt).
"""
import pathlib
import re
import sys

sys.dont_write_bytecode = True

from items import says_of
from sources import CRATES

LIST = pathlib.Path('crates.txt')
PAGE = pathlib.Path('docs/ARCHITECTURE.md')
BEGIN, END = '<!-- made by tools/layers.py -->\n', '<!-- end of what is made -->\n'


class Layer:
    """A layer: its crates in the order of crates.txt, and the layers that these stand on."""

    def __init__(self, title, says):
        self.name = title.split()[0].lower()
        self.title, self.says = title, says
        self.crates = []
        self.below = set()


class Layers:
    """The crates with what each stands on, and their layers."""

    def __init__(self):
        self.crates = crates_below()
        *self.layers, self.tests = layers_listed()
        self.proved = {crate for crate in self.crates if has_contract(crate)}
        of = {crate: layer for layer in self.all() for crate in layer.crates}
        for layer in self.all():
            found = {of[other].name for crate in layer.crates for other in self.crates[crate] if other in of}
            layer.below = found - {layer.name}

    def all(self):
        return self.layers + [self.tests]

    def faults(self):
        """Why the crates make no layers."""
        listed = [crate for layer in self.all() for crate in layer.crates]
        for crate in self.crates:
            if listed.count(crate) != 1:
                yield f'{crate} is in {listed.count(crate)} layers of {LIST}'
        reached = {layer.name: self.reached(layer.name) for layer in self.all()}
        for layer in self.all():
            if layer.name in reached[layer.name]:
                yield f'the layer {layer.title} stands on one that stands on it'
            if layer is not self.tests and self.tests.name in layer.below:
                yield f'the layer {layer.title} stands on tests'

    def reached(self, name):
        """The layers that a layer stands on, by way of others too."""
        below = {layer.name: layer.below for layer in self.all()}
        seen, waiting = set(), list(below[name])
        while waiting:
            other = waiting.pop()
            if other not in seen:
                seen.add(other)
                waiting += below[other]
        return seen

    def arrows(self):
        """Which layer stands on which, without those arrows that others make up for."""
        for layer in self.all():
            for other in [one for one in self.all() if one.name in layer.below]:
                if not any(other.name in self.reached(third) for third in layer.below):
                    yield layer, other


def layers_listed():
    """The layers of crates.txt, in its order."""
    found = []
    for line in LIST.read_text().splitlines():
        if line.startswith('## '):
            title, _, says = line[3:].partition(': ')
            found.append(Layer(title, says))
        elif ':' in line and not line.startswith('#') and found:
            found[-1].crates.append(line.partition(':')[0].strip())
    return found


def crates_below():
    """Each crate of crates.txt with those of the repository that it stands on."""
    found = {}
    for line in LIST.read_text().splitlines():
        if ':' in line and not line.startswith('#'):
            crate, _, below = line.partition(':')
            found[crate.strip()] = below.split()
    return {crate: [other for other in below if other in found] for crate, below in found.items()}


def has_contract(crate):
    """Whether a function of a crate promises something."""
    sources = (CRATES / crate / 'src').glob('*.rt')
    return any(re.search(r'\bensures\b', re.sub(r'//.*', '', path.read_text())) for path in sources)


def root_of(crate):
    """The file that a crate begins with."""
    library = CRATES / crate / 'src' / 'lib.rt'
    return library if library.exists() else library.with_name('main.rt')


def sentence_of(crate):
    """The first sentence that a crate says of itself."""
    says = says_of(crate)
    ends = re.search(r'[.!?](?=\s|$)', says)
    return says[:ends.end()] if ends else says


def mermaid(layers):
    lines = ['```mermaid', 'flowchart TB']
    for layer in reversed(layers.all()):
        names = [f'{crate} ✓' if crate in layers.proved else crate for crate in layer.crates]
        parts = [', '.join(names[at:at + 4]) for at in range(0, len(names), 4)]
        lines.append(f'  {layer.name}["<b>{layer.title}</b>: {layer.says}<br/>{",<br/>".join(parts)}"]')
    for layer, other in layers.arrows():
        lines.append(f'  {layer.name} {"-.->" if layer is layers.tests else "-->"} {other.name}')
    return lines + ['```']


def table(layers):
    lines = ['| layer | crate | what it is | ✓ |', '|---|---|---|---|']
    for layer in layers.all():
        for crate in layer.crates:
            title = layer.title if crate == layer.crates[0] else ''
            says, mark = sentence_of(crate).replace('|', '\\|'), '✓' if crate in layers.proved else ''
            lines.append(f'| {title} | [{crate}](../{root_of(crate)}) | {says} | {mark} |')
    return lines


def made_part(layers):
    """What stands between the two lines of the page."""
    return '\n'.join(mermaid(layers) + [''] + table(layers) + [''])


def made_page(text, layers):
    """The page with its made part as it has to be."""
    if BEGIN not in text or END not in text:
        raise SystemExit(f'{PAGE} has no place for the crates: the lines {BEGIN.strip()} and {END.strip()}')
    head, _, rest = text.partition(BEGIN)
    return head + BEGIN + made_part(layers) + END + rest.partition(END)[2]


def check_layers():
    """Prints why the crates make no layers, or that the page is out of date; returns how many places there are."""
    if not PAGE.exists():
        return 0
    layers = Layers()
    faults = list(layers.faults())
    if not faults and made_page(PAGE.read_text(), layers) != PAGE.read_text():
        faults = [f'{PAGE}: its crates are out of date: run tools/layers.py']
    for fault in faults:
        print(fault)
    return len(faults)


def main(words):
    if words == ['--check']:
        return 1 if check_layers() else 0
    layers = Layers()
    faults = list(layers.faults())
    for fault in faults:
        print(fault)
    if faults:
        return 1
    PAGE.write_text(made_page(PAGE.read_text(), layers))
    return 0


if __name__ == '__main__':
    sys.exit(main(sys.argv[1:]))
