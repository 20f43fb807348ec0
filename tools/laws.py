"""The calls that stand in the code for what their contracts say: each is of a law, and ends in `// proof`.

A law is a function that returns nothing and does nothing. Its body is empty, or has only calls that end in `// proof`.
"""
import re

from sources import CRATES

HEAD = re.compile(r'( *)(?:pub(?:\(crate\))? )?fn (\w+)(.*)')
CALL = re.compile(r'(?:let _\w+ = )?((?:&?[\w\[\]]+(?:\.|::))*)(\w+)\((?:[^;{}()]|\([^()]*\))*\);( // proof)?$')
GETTERS_OF_STD = {'len', 'is_empty', 'as_slice', 'as_str', 'as_bytes'}
NO_GETTERS = {'into_raw_fd'}


class Body:
    """A function of a file: its signature with its clauses, and the lines of its body, the first of which has this number."""

    def __init__(self, path, lines, number):
        indent, self.name, rest = HEAD.match(lines[number]).groups()
        self.path, self.lines = path, []
        signature = [rest]
        while not ends_signature(lines[number], indent):
            number += 1
            signature.append(lines[number])
        self.first = number + 2
        if lines[number].endswith('{'):
            while lines[number + 1] != indent + '}':
                number += 1
                self.lines.append(lines[number].strip())
        text = '\n'.join(signature)
        receiver = re.match(r'[^(]*\(\s*(&mut self|&self|self)\b', text)
        self.receiver = receiver.group(1) if receiver else ''
        self.returns = '->' in re.split(r'\n\s*(?:requires|ensures)\b', text)[0]
        self.has_promise = bool(re.search(r'\n\s*ensures\b', text))

    def does_nothing(self):
        """Whether it returns nothing, changes nothing, and makes no calls but those that are proof."""
        return not self.returns and self.receiver != '&mut self' and all(line.endswith('// proof') for line in self.lines)


def ends_signature(line, indent):
    return line == indent + '{' or line.endswith((' {', '{}')) or line.endswith(';')


def check_laws():
    """Prints each call that is not as it is said above, and returns how many there are."""
    bodies = [body for path in sorted(CRATES.glob('*/src/*.rt')) for body in bodies_of(path)]
    laws, getters = laws_of(bodies), getters_of(bodies)
    faults = [fault for body in bodies for fault in faults_of(body, laws, getters)]
    for fault in faults:
        print(fault)
    return len(faults)


def bodies_of(path):
    lines = path.read_text().splitlines()
    return [Body(path, lines, number) for number, line in enumerate(lines) if HEAD.match(line)]


def laws_of(bodies):
    """The names that laws have, and no other function."""
    promised = {body.name for body in bodies if body.does_nothing() and body.has_promise}
    return promised - {body.name for body in bodies if not body.does_nothing()}


def getters_of(bodies):
    """The names of the methods that change nothing, and return something."""
    getters = {body.name for body in bodies if body.receiver in ('&self', 'self') and body.returns}
    others = {body.name for body in bodies if body.receiver == '&mut self' or not body.returns}
    return (getters | GETTERS_OF_STD) - others - NO_GETTERS


def faults_of(body, laws, getters):
    for number, line in enumerate(body.lines, body.first):
        call = CALL.match(line)
        if call:
            on, name, mark = call.groups()
            place = f'{body.path}:{number}'
            if name in laws and not mark:
                yield f'{place}: {name} is a law: its call ends in `// proof`'
            elif on.endswith('.') and name in getters and not body.does_nothing():
                yield f'{place}: what {name} returns is dropped: a law says what this call is there for'
            elif mark and name not in laws and not body.does_nothing():
                yield f'{place}: {name} is no law, and its call no proof'
