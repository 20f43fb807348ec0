"""The parts of documents that a tool makes: they stand between two lines that say so."""

END = '<!-- end of what is made -->\n'


def begin_of(tool):
    return f'<!-- made by {tool} -->\n'


def made_part(page, tool, part):
    """The text of a page with this part in the place of what the tool made before."""
    text, begin = page.read_text(), begin_of(tool)
    head, found, rest = text.partition(begin)
    _, ended, tail = rest.partition(END)
    if not found or not ended:
        raise SystemExit(f'{page} has no place for what {tool} makes: the lines {begin.strip()} and {END.strip()}')
    return head + begin + part + END + tail
