#!/usr/bin/env python3
"""The documents of `--json` and their members, as a table in docs/AUTOMATION.md, from the definitions of the lines.

    tools/document_table.py            writes the table
    tools/document_table.py --check    says whether it is up to date; the exit status is 1 where it is not

Run it at the top of the repository. Each document begins with the member `version`, which the table leaves out.
"""
import pathlib
import re
import sys

sys.dont_write_bytecode = True

from made import made_part
from sources import CRATES

PAGE = pathlib.Path('docs/AUTOMATION.md')
TOOL = 'tools/document_table.py'

# The command, what a document is about, and the definition of its line. A second one has further members.
ROWS = [
    ('`run`', 'a key', ['kmip_run_command.RunReport.run_key_line']),
    ('', 'the end', ['kmip_run_command.RunReport.end_line']),
    ('', 'a progress file that the server contradicts', ['kmip_report.FaultLines.contradiction_line']),
    ('`list`', 'a key', ['kmip_plan_report.Listing.key_line']),
    ('`look`', 'a key', ['kmip_look_command.LookReport.look_line']),
    ('`list`, `look`', 'all keys', ['kmip_plan_report.Listing.finished_line']),
    ('`check`', 'a key', ['kmip_plan_report.Checking.check_line']),
    ('', '`--after`', ['kmip_plan_report.Checking.prolongs_line']),
    ('`probe`', 'its keys', ['kmip_probe_command.Lines.keys_line', 'kmip_probe_command.Lines.used_line']),
    ('', 'a premise', ['kmip_probe_command.Lines.unbroken_line']),
    ('', 'the end', ['kmip_probe_command.Lines.sum_line']),
    ('`sim`', 'a run', ['kmip_sim_command.SimReport.run_line']),
    ('', 'a message', ['kmip_sim_command.SimReport.ask_line']),
    ('', 'an object', ['kmip_sim_command.SimReport.record_line']),
    ('`sim`', "a script's fault", ['kmip_sim_command.SimReport.script_line']),
    ('', "a crash's", ['kmip_sim_command.SimReport.crash_line']),
    ('`run`, `list`', "a progress file's fault", ['kmip_plan_report.Refusals.progress_refusal']),
    ('all', "a plan's fault", ['kmip_plan_report.Refusals.plan_refusal']),
    ('', 'another fault', ['kmip_report.FaultLines.fault_line']),
]
# What begins each document.
VERSION = 'version'
SIGNATURE = re.compile(r'^(?:abbrev|unfoldable) pub (\w+) : (?:.*→ )?List Piece$')
TERM = r'(?:\((?:[^()]|\([^()]*\))*\)|\S+)'
PIECE = re.compile(rf'''\b(?:noted|absent)\ \(codes\ "(\w+)"\)
    | \b(?:told|word|word_or|shown|shown_or|number|number_or|signed|signed_or|mask|truth|words|listed)\ {TERM}\ \(codes\ "(\w+)"\)
    | (\b[a-z]\w*)''', re.VERBOSE)


def definitions():
    """The text of each line that is defined, by its crate, file and name."""
    found = {}
    for path in sorted(CRATES.glob('*/specs/*.antt')):
        lines = path.read_text().splitlines()
        for at, line in enumerate(lines):
            if signature := SIGNATURE.match(line):
                body = []
                for further in lines[at + 1:]:
                    if not further.strip():
                        break
                    body.append(further)
                found[f'{path.parts[1]}.{path.stem}.{signature[1]}'] = ' '.join(body).partition(' = ')[2]
    return found


def members_of(name, lines):
    """The members of the document of a line, in their order, without the version."""
    crate, file, _ = name.split('.')
    if name not in lines:
        raise SystemExit(f'{TOOL}: no line is defined as {name}')
    members = []
    for noted, told, cited in PIECE.findall(lines[name]):
        if noted or told:
            members.append(noted or told)
            continue
        same = [f'{crate}.{file}.{cited}', *(it for it in lines if it.startswith(f'{crate}.')), *lines]
        other = next((it for it in same if it in lines and it.split('.')[2] == cited and it != name), None)
        if other:
            members += members_of(other, lines)
    return members


def row_of(names, lines):
    """The members that a row of the table has."""
    first, *further = (members_of(name, lines) for name in names)
    cell = ', '.join(f'`{member}`' for member in first)
    if further:
        cell += '; if it makes none also ' + ', '.join(f'`{member}`' for member in further[0] if member not in first)
    return cell


def table():
    lines = definitions()
    rows = ['| command | of | members |', '|---|---|---|']
    for command, of, names in ROWS:
        rows.append(f'| {command} | {of} | {row_of(names, lines)} |'.replace('|  |', '| |'))
    return '\n'.join(rows) + '\n'


def check_document_table():
    """Says whether the table is out of date; returns 1 then."""
    if not PAGE.exists() or made_part(PAGE, TOOL, table()) == PAGE.read_text():
        return 0
    print(f'{PAGE}: its table of documents is out of date: run {TOOL}')
    return 1


def main(words):
    if words == ['--check']:
        return check_document_table()
    PAGE.write_text(made_part(PAGE, TOOL, table()))
    return 0


if __name__ == '__main__':
    sys.exit(main(sys.argv[1:]))
