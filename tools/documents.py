"""Compares the documents and man pages with the code: the names in them, where their links lead, how long they are, and
what the sources say of themselves and bring in."""
import re

from calls import check_calls
from claims import check_claims
from comments import check_comments
from counts import check_counts
from document_table import check_document_table
from headline import check_headline
from laws import check_laws
from layers import check_layers
from links import check_links
from man_pages import check_man_pages
from message_rows import check_messages
from mistakes import check_mistakes
from own_numbers import check_own_numbers
from plan_schema import check_plan_schema
from prose import check_prose, documents
from row_files import check_rows
from sources import CRATES
from touches import check_touches
from trusted import check_trusted
from uses import check_uses
from versions import check_versions
from ways import check_ways

NAME = re.compile(r'`((?:\w+::)*[A-Za-z]+(?:_\w+|[a-z0-9][A-Z]\w*))`')


def check(repository):
    """Prints what does not fit, and returns the exit status: 1 where there is something."""
    faults = check_comments(repository) + check_headline(repository) + check_own_numbers() + check_layers() + check_laws()
    faults += check_links() + check_names() + check_messages() + check_rows() + check_mistakes(repository) + check_ways() + check_prose()
    faults += check_uses(repository) + check_plan_schema() + check_man_pages() + check_versions()
    faults += check_calls(repository) + check_trusted()
    faults += check_counts() + check_claims() + check_touches() + check_document_table()
    print(f'{faults} places to look at' if faults else 'nothing to look at')
    return 1 if faults else 0


def check_names():
    """The names of several words in the documents that stand nowhere in the code, and of a crate's those that it does not have."""
    known, faults = {}, 0
    for path in CRATES.rglob('*'):
        if path.suffix in ('.rt', '.antt', '.edit') and 'out' not in path.parts:
            words = known.setdefault(path.parts[1], {path.parts[1]})
            words.update(re.findall(r'\w+', path.read_text()), [path.stem])
    every = set().union(*known.values())
    for document in documents():
        for name in sorted(set(NAME.findall(document.read_text()))):
            words = name.split('::')
            if not known.get(words[0], every).issuperset(words):
                faults += 1
                print(f'stands nowhere in the code: {name} in {document}')
    return faults
