#!/usr/bin/env python3
"""The functions of the program that touch the machine, each with a trial that calls it, as a table in docs/PROOF.md.

    tools/touches.py            writes the table
    tools/touches.py --check    says what is wrong; the exit status is 1 if something is

Run it at the top of the repository. A function is found by the calls in its body: those of std and mio for files,
sockets, clocks, standard streams, the environment and random bytes (THINGS, MODULES, HANDLES). A call of another kind
is not found. Comments and lines `use` are left out. A function that calls the methods of a stream, a link or a clock
of any type touches nothing by that.

TRIALS says which trial calls a function. It is wrong if a function has no entry, if an entry is of no such function,
and if a trial is neither a target of the Makefile nor a crate of tests.
"""
import pathlib
import re
import sys

sys.dont_write_bytecode = True

from made import made_part
from package import crates_of
from sources import CRATES

PAGE = pathlib.Path('docs/PROOF.md')
TOOL = 'tools/touches.py'
TARGET = re.compile(r'^(\w+):', re.M)

SAYS = ' '.join('''
This list has each function of the program that calls std for files, sockets, clocks, standard streams, the environment
or random bytes, with a trial that calls it, if there is one. All other functions call only these and proved code, over
streams, links and clocks that they are given. What std says of files, sockets, clocks and streams is nothing, so of
what these functions do with them nothing is claimed, but that they are safe and total.
'''.split())

# What is touched, and the calls by which it is.
THINGS = {
    'sockets': r'\.connect_timeout\(|\bconnect_addr\(|\brt\.bind\(|\bTcpListener::bind\(|\blistener\.accept\('
               r'|\bPoll::new\(|\.set_(?:read_timeout|write_timeout|nonblocking)\(|\.local_addr\(|\.try_clone\(',
    'files': r'\bfs::\w+\(|\bOpenOptions::new\(|\.try_lock\(|\.sync_(?:all|data)\(|\bfile\.write_all\(',
    'input, output': r'\bio::(?:reader|writer)\(|\brt\.(?:print(?:ln)?|reader|writer)\(|\.stdin\(\)|\.stdout\(\)',
    'standard error': r'\.eprint(?:ln)?\(|\.stderr\(\)',
    'clock': r'\b(?:Instant|SystemTime)::now\(|\bthread::sleep\(',
    'environment': r'\benv::\w+\(',
    'random bytes': r'\brt\.fill_bytes\(',
}
# The modules of std whose functions touch a thing also if a file brings them in by their names.
MODULES = {'fs': 'files', 'env': 'environment', 'thread': 'clock'}
# The types of fields whose methods touch a thing.
HANDLES = {
    'sockets': r'TcpListener|TcpStream|UnixStream|Poll|R::Listener|R::Stream',
    'files': r'File|R::File',
    'input, output': r"Printer<'\w+, HostRuntime>",
}
LEFT_OUT = re.compile(r'//.*|^ *(?:ghost |pub )?use [^;]*;', re.M)
BROUGHT = re.compile(r'^use std::(\w+)::(\{[^}]*\}|\w+);', re.M)
BLOCK = re.compile(r'(?:impl|(?:pub(?:\(\w+\))? )?trait)\b')
FUNCTION = re.compile(r' *(?:pub(?:\(\w+\))? )?(?:const )?fn (\w+)')
GENERICS = re.compile(r'<(?:[^<>]|<(?:[^<>]|<[^<>]*>)*>)*>')

# What stands in the place of a trial of a function that nothing calls.
UNCALLED = 'none: nothing calls it'
# The trial of the functions of a crate, of those of a file of it, or of one function. The narrowest entry counts.
TRIALS = {
    'kmip_account': 'make troubles',
    'kmip_account exchange_log ExchangeLog::seconds_since_answer': 'make origin',
    'kmip_account telling': 'make turns',
    'kmip_explaining': 'make faults',
    'kmip_files': 'test_files',
    'kmip_files progress_file': 'make origin',
    'kmip_files progress_file ProgressFile::folder_beside': 'make peers',
    'kmip_files reading bytes_at': UNCALLED,
    'kmip_files reading text_of_input': 'make causes',
    'kmip_network last_answer': 'make peers',
    'kmip_network looking': 'make peers',
    'kmip_network machine_watch': 'make origin',
    'kmip_network machine_watch MachineWatch::waits_for_lock': 'make peers',
    'kmip_network repeating': 'make storm',
    'kmip_network serving': 'make turns',
    'kmip_network serving_at_once': 'make turns',
    'kmip_program': 'make causes',
    'kmip_program doing print_schema': 'make faults',
    'kmip_run_files listing': 'make origin',
    'kmip_run_files machine_desk': 'make peers',
    'kmip_run_files metrics_place': 'make origin',
    'kmip_run_files saved': 'make origin',
    'kmip_runs pace': 'make troubles',
    'kmip_transport': 'test_transport',
    'kmip_transport unix Unix::dial': 'make peers',
    'kmip_trouble': 'make causes',
    'kmip_trouble another_server': 'make origin',
    'kmip_trouble contradiction': 'make origin',
}


def functions_of(text):
    """The functions of a source: each by its name, `Type::name` in a block, with its lines as far as the next one."""
    found, owner, header = [], '', ''
    for line in LEFT_OUT.sub('', text).splitlines():
        start = FUNCTION.match(line)
        if header or BLOCK.match(line):
            header += f' {line}'
            if line.endswith(('{', '}')):
                owner, header = f'{owner_of(header)}::', ''
        elif line == '}':
            owner = ''
        elif start:
            found.append((owner + start[1], []))
        if found:
            found[-1][1].append(line)
    return [(name, re.sub(r'\s*\n\s*\.', '.', '\n'.join(lines))) for name, lines in found]


def owner_of(header):
    """The type or the trait of a block."""
    words = re.findall(r'\w+', GENERICS.sub('', header.replace('->', '')))
    before = next(word for word in ('for', 'impl', 'trait') if word in words)
    return words[words.index(before) + 1]


def calls_of(text):
    """The calls of a source by which each thing is touched: also those by a name that it brings in, and of a field."""
    found = {thing: [calls] for thing, calls in THINGS.items()}
    for module, names in BROUGHT.findall(text):
        if module in MODULES:
            brought = set(re.findall(r'\b[a-z_]+\b', names)) - {'self'}
            found[MODULES[module]] += [rf'(?<![\w.:]){name}\(' for name in sorted(brought)]
    for thing, types in HANDLES.items():
        fields = re.findall(rf'^ +(?:pub(?:\(\w+\))? )?(\w+): (?:{types}),$', text, re.M)
        found[thing] += [rf'\bself\.{name}\.\w+\(' for name in fields]
    return {thing: re.compile('|'.join(calls)) for thing, calls in found.items()}


def touching(crates):
    """Each function of the crates that touches something: the crate, the file, the name, and what it touches."""
    for crate in crates:
        for path in sorted((CRATES / crate / 'src').glob('*.rt')):
            text = path.read_text()
            calls = calls_of(text)
            for name, body in functions_of(text):
                things = [thing for thing, pattern in calls.items() if pattern.search(body)]
                if things:
                    yield crate, path.stem, name, things


def entry_of(crate, file, name):
    """The narrowest entry of TRIALS for a function; none if there is none."""
    return next((it for it in (f'{crate} {file} {name}', f'{crate} {file}', crate) if it in TRIALS), None)


def faults_of(found, targets, crates):
    """What is wrong with TRIALS, by these functions, targets of the Makefile and crates of tests."""
    entries = {(crate, file, name): entry_of(crate, file, name) for crate, file, name, _ in found}
    for crate, file, name, things in found:
        if not entries[crate, file, name]:
            yield f'no trial is known of {crate} {file} {name}, which touches {", ".join(things)}'
    for entry, trial in TRIALS.items():
        if entry not in entries.values():
            yield f'the entry {entry} is of no function that touches anything'
        if trial != UNCALLED and trial not in crates and trial not in [f'make {target}' for target in targets]:
            yield f'the trial of {entry} is neither a target of the Makefile nor a crate of tests: {trial}'


def joined(names):
    """The names in a list, those of a type behind the one name of it."""
    groups = {}
    for name in names:
        owner, _, own = name.rpartition('::')
        groups.setdefault(owner or own, []).append(own)
    return ', '.join(f'`{owner}`' if own == [owner] else f'`{owner}::{own[0]}`' if len(own) == 1 else
                     f'`{owner}::{{{", ".join(own)}}}`' for owner, own in groups.items())


def table(found):
    """The sentences before the table, and a row for the functions of a file that touch the same and have one trial."""
    rows, before = {}, ()
    for crate, file, name, things in found:
        trial = TRIALS.get(entry_of(crate, file, name), '')
        rows.setdefault((crate, file, ', '.join(things), trial), []).append(name)
    lines = ['', SAYS, '', '| crate | file | functions | touch | trial |', '|---|---|---|---|---|']
    for (crate, file, things, trial), names in rows.items():
        shown = ['' if (crate, file)[:place] == before[:place] else (crate, file)[place - 1] for place in (1, 2)]
        shown += [joined(names), things, f'`{trial}`' if trial.startswith('make ') else trial]
        lines.append('| ' + ' | '.join(shown) + ' |')
        before = crate, file
    return '\n'.join(lines) + '\n'


def sources():
    """The functions that touch something, and the crates of tests."""
    text = pathlib.Path('crates.txt').read_text()
    of_program = crates_of(text)[0]
    names = [line.split(':')[0] for line in text.splitlines() if ':' in line and not line.startswith('#')]
    return list(touching(of_program)), [name for name in names if name not in of_program]


def check_touches():
    """Prints what is wrong with the trials, and whether the table is out of date; returns how many faults there are."""
    if not PAGE.exists():
        return 0
    found, tests = sources()
    faults = list(faults_of(found, TARGET.findall(pathlib.Path('Makefile').read_text()), tests))
    for fault in faults:
        print(f'{TOOL}: {fault}')
    if made_part(PAGE, TOOL, table(found)) != PAGE.read_text():
        faults.append('old')
        print(f'{PAGE}: its table of what touches the machine is out of date: run {TOOL}')
    return len(faults)


def main(words):
    if words == ['--check']:
        return 1 if check_touches() else 0
    PAGE.write_text(made_part(PAGE, TOOL, table(sources()[0])))
    return 0


if __name__ == '__main__':
    sys.exit(main(sys.argv[1:]))
