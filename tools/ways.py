"""The ways of a message through the crates, as the documents list them: each step is reached from one above it."""
import re

from mistakes import functions_of
from prose import documents, without_fences
from sources import CRATES

HEADING = re.compile(r'#+ The way\b')
STEP = re.compile(r'\s*(?:\d+\.|[-*])\s+`(\w+)::((?:\w+::)*\w+)`')


def check_ways():
    """Prints each step that is no function, or that no step above it reaches; returns how many there are.

    A way is a list below a heading that begins with `The way`. Those of its lines are steps that begin with a
    crate and a function in backquotes. A step reaches what it calls by name, and what the functions of its own
    crate call that it reaches. The first step of a list is called from elsewhere.
    """
    faults, known = 0, {}
    for document in documents():
        for way in ways_of(document.read_text()):
            for number, fault in faults_of(way, known):
                faults += 1
                print(f'{document}:{number}: {fault}')
    return faults


def ways_of(text):
    """The lists of steps of a document: each step with its line, its crate and its function."""
    way, is_way, found = [], False, []
    for number, line in enumerate(without_fences(text).splitlines(), 1):
        step = STEP.match(line)
        if line.startswith('#'):
            is_way = HEADING.match(line) is not None
        if step and is_way and (CRATES / step.group(1)).is_dir():
            way.append((number, step.group(1), step.group(2)))
        elif line and not line.startswith((' ', '-', '*')) and not re.match(r'\d+\.', line):
            found.append(way)
            way = []
    return [way for way in found + [way] if way]


def faults_of(way, known):
    code = ''
    for number, crate, name in way:
        if crate not in known:
            known[crate] = functions_of(crate)
        functions = known[crate].get(name) or known[crate].get('::'.join(name.split('::')[-2:]), [])
        if not functions:
            yield number, f'{crate} has no function {name}'
        elif code and not calls(code, name.split('::')[-1]):
            yield number, f'no step above it reaches {crate}::{name}'
        code += code_reached(functions, known[crate])


def code_reached(functions, of_crate):
    """The bodies of these functions, and of those of their crate that they reach, without comments."""
    code, seen, waiting = '', set(), list(functions)
    while waiting:
        function = waiting.pop()
        if function in seen:
            continue
        seen.add(function)
        body = re.sub(r'//.*|\bfn \w+', '', function.body)
        code += body
        for word in set(re.findall(r'\w+', body)) & set(of_crate):
            if calls(body, word):
                waiting += of_crate[word]
    return code


def calls(code, name):
    """Whether a function is called there by its name, or handed on."""
    return re.search(rf'\b{name}(?:::<[^>]*>)?\(|[(,]\s*(?:\w+::)*{name}\s*[,)]', code) is not None
