"""The links of a folder of pages that lead nowhere, and the places that stand twice in a page."""
import html.parser
import urllib.parse


class Reader(html.parser.HTMLParser):
    def __init__(self):
        super().__init__()
        self.ids, self.links, self.open, self.text = [], [], [], ''

    def handle_starttag(self, tag, attrs):
        values = dict(attrs)
        if tag != 'meta':
            self.open.append(tag)
        if 'id' in values:
            self.ids.append(values['id'])
        if 'href' in values:
            self.links.append(values['href'])

    def handle_endtag(self, tag):
        assert self.open.pop() == tag, tag

    def handle_data(self, data):
        self.text += data


def read(path):
    reader = Reader()
    reader.feed(path.read_text())
    assert not reader.open, reader.open
    return reader


def dead_links(folder):
    pages = {path.name: read(path) for path in sorted(folder.glob('*.html'))}
    dead = []
    for name, page in pages.items():
        dead += [f'{name}: twice: {one}' for one in sorted({one for one in page.ids if page.ids.count(one) > 1})]
        for link in page.links:
            file, _, place = link.partition('#')
            if (file or name) not in pages or place and urllib.parse.unquote(place) not in pages[file or name].ids:
                dead.append(f'{name}: {link}')
    return dead
