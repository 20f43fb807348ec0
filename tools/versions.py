"""Compares what the sources and the documents say of the version, and of the toolchain that it is proved with."""
import pathlib
import re

import package

LONG_VERSION = re.compile(r'const LONG_VERSION: &str = "([^"]*)";')
PROOF = pathlib.Path('docs/PROOF.md')
# The first heading of the changes: a version and the day on which it was made.
HEADING = re.compile(r'## (\S+) \(\d{4}-\d\d-\d\d\)')


def check_versions():
    """Prints what does not fit, and returns how many places there are."""
    version, toolchain = package.version(), package.toolchain()
    wrong = []
    said = LONG_VERSION.search(package.SOURCE.read_text())
    if not said or said[1] != f'{version}\ntoolchain: {toolchain}':
        wrong.append(f'{package.SOURCE}: LONG_VERSION is not version {version} with the toolchain of README.md')
    changes = pathlib.Path('CHANGELOG.md').read_text()
    first = re.search('^## .*$', changes, re.M)
    dated = first and HEADING.fullmatch(first[0])
    if not dated or dated[1] != version:
        wrong.append(f'CHANGELOG.md: its first heading is not version {version} with its day')
    if f'`{toolchain}`' not in PROOF.read_text():
        wrong.append(f'{PROOF}: it does not name the toolchain of README.md')
    print('\n'.join(wrong), end='\n' if wrong else '')
    return len(wrong)
