"""Where the links and the paths of the documents lead: to files that declare the name, to headings, and to lines of the sources."""
import pathlib
import re

from prose import documents, without_fences

LINK = re.compile(r'\[((?:[^\[\]]|\[[^\]]*\])*)\]\(\s*<?([^)\s>]+)>?(?:\s+"[^"]*")?\s*\)')
TARGET = re.compile(r'^ {0,3}\[([^\]^]+)\]:\s+<?([^\s>]+)', re.M)
PATH = re.compile(r'`((?:crates|docs|bench|examples|tools)/[\w./-]+)`')
LINES = re.compile(r'L(\d+)(?:-L(\d+))?')
QUOTED = re.compile(r'`(?:\w+::)*(\w+)`')
# What declares a name, by the kind of source.
DECLARED = {
    '.rt': r'\b(?:fn|struct|enum|trait|const|static|type|mod) NAME\b',
    '.antt': r'^\s*(?:(?:abbrev|unfoldable) )?(?:pub )?(?:(?:data|record) NAME\b|NAME : )',
}


def check_links():
    """Prints what leads nowhere, and returns how many do."""
    faults = 0
    for document in documents():
        text = without_fences(document.read_text())
        for place, name, link in sorted(links_of(text)):
            why = fault_of(document, name, link)
            if why:
                faults += 1
                print(f'{document}:{text[:place].count(chr(10)) + 1}: leads nowhere: {link}: {why}')
        for found in PATH.finditer(text):
            path = found.group(1)
            if not pathlib.Path(path).exists() and '/out/' not in path and 'NAME' not in path:
                faults += 1
                print(f'{document}:{text[:found.start()].count(chr(10)) + 1}: leads nowhere: {path}')
    return faults


def links_of(text):
    """Each link of a document with its place and its words, but for those to other hosts."""
    for pattern in LINK, TARGET:
        for found in pattern.finditer(text):
            if not re.match(r'[a-z]+:', found.group(2)):
                yield found.start(), found.group(1), found.group(2)


def fault_of(document, name, link):
    """Why a link leads nowhere; None where it leads somewhere."""
    path, _, place = link.partition('#')
    target = document.parent / path if path else document
    if not target.exists():
        return 'no such file'
    lines = LINES.fullmatch(place)
    if not place:
        return declaring_fault(target, name)
    if lines and target.suffix != '.md':
        return line_fault(target, name, int(lines.group(1)), int(lines.group(2) or lines.group(1)))
    if target.is_dir() or place not in headings_of(target):
        return 'no such heading'
    return None


def line_fault(target, name, first, last):
    """Why these lines are not those that are meant: they have the name that the link's words are, as `read` or *safe*."""
    lines = target.read_text().splitlines()
    if not 1 <= first <= last <= len(lines):
        return f'the file has {len(lines)} lines'
    quoted = re.fullmatch(r'[`*](?:\S*::)?([^`*\s]+)[`*]', name.strip())
    if quoted and quoted.group(1) not in re.findall(r"[^\s(){}:,;<>]+", '\n'.join(lines[first - 1:last])):
        return f'{quoted.group(1)} does not stand there'
    return None


def declaring_fault(target, name):
    """Why a source is not the one that is meant: it does not declare the name that the link's words are, as `read`."""
    quoted = QUOTED.fullmatch(name.strip())
    if not quoted or target.suffix not in DECLARED:
        return None
    declared = DECLARED[target.suffix].replace('NAME', quoted.group(1))
    return None if re.search(declared, target.read_text(), re.M) else f'{quoted.group(1)} is not declared there'


def headings_of(target):
    """The headings of a document as a link names them; what stands twice is numbered."""
    seen, slugs = {}, set()
    for head in re.findall(r'^ {0,3}#+ +(.*?)[ #]*$', without_fences(target.read_text()), re.M):
        head = re.sub(r'\[([^\]]*)\]\([^)]*\)', r'\1', head)
        slug = re.sub(r'[^\w -]', '', head.lower()).replace(' ', '-')
        count = seen[slug] = seen.get(slug, -1) + 1
        slugs.add(f'{slug}-{count}' if count else slug)
    return slugs
