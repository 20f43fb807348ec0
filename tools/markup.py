"""Sources and docstrings as HTML."""
import html
import re
import urllib.parse

from sources import WORD

SIGN = r'[^\w\s(){}\[\],.:;"\'`λ]+'
TOKEN = re.compile(rf'(?P<comment>(?:--|//).*)|(?P<text>"[^"\n]*")|(?P<word>{WORD.pattern})|(?P<sign>{SIGN})')

STYLE = '''
body { font: 16px/1.5 sans-serif; color: #222; margin: 0 auto; max-width: 62rem; padding: 1rem 1.5rem 4rem; }
a { color: #1155aa; text-decoration: none; } a:hover { text-decoration: underline; }
h2 { border-bottom: 1px solid #ccc; margin-top: 2.5rem; } h3, h4 { margin-bottom: .3rem; }
h3 small, h4 small, h2 small { color: #777; font-weight: normal; font-size: .8rem; margin-left: .5rem; }
pre, code { font: 14px/1.45 monospace; }
pre { background: #f6f6f4; margin: .3rem 0; padding: .5rem .7rem; white-space: pre-wrap; }
.comment { color: #6a6a55; } .clause { border-left: 3px solid #cdd9e5; margin: .6rem 0 .6rem 1rem; padding-left: .8rem; }
.clause p, .rests { margin: .2rem 0; } .rests, details { font-size: .85rem; color: #555; }
td { padding: .15rem 1rem .15rem 0; vertical-align: top; } :target { background: #fff6d5; }
'''.strip()


def page(title, body):
    """A whole page, which needs nothing else."""
    return ('<!DOCTYPE html>\n<html lang="en">\n<head>\n<meta charset="utf-8">\n'
            f'<title>{html.escape(title)}</title>\n<style>\n{STYLE}\n</style>\n</head>\n<body>\n{body}\n</body>\n</html>\n')


def anchor(name):
    """The name as it stands in an `id`, which has no spaces."""
    return html.escape(re.sub(r'\s+', '', name))


def reference(file, name):
    """A link's target: a page, and a place in it."""
    return f'{file}#{urllib.parse.quote(re.sub(r"[ ]+", "", name))}'


def link(target, text):
    return f'<a href="{html.escape(target)}">{html.escape(text)}</a>'


def linked(text, target_of):
    """The text as HTML, where each word or sign that has a target leads there."""
    done, written = 0, []
    for found in TOKEN.finditer(text):
        token = found.group()
        written.append(html.escape(text[done:found.start()]))
        done = found.end()
        if found.lastgroup == 'comment':
            written.append(f'<span class="comment">{html.escape(token)}</span>')
            continue
        target = None if found.lastgroup == 'text' or is_label(text, found) else target_of(token)
        written.append(link(target, token) if target else html.escape(token))
    return ''.join(written) + html.escape(text[done:])


def is_label(text, found):
    """Whether the word is the name of a field that a record gives a value to."""
    return re.match(r' =(?!=)', text[found.end():]) is not None and text[:found.start()].rstrip()[-1:] in ('{', ';')


def inline(text):
    """A line of a docstring: what stands in backquotes is code."""
    parts = re.split(r'`([^`]+)`', text)
    return ''.join(f'<code>{html.escape(part)}</code>' if number % 2 else html.escape(part)
                   for number, part in enumerate(parts))


def docstring(lines):
    """A docstring as HTML: paragraphs, headings, lists and blocks of code."""
    written, paragraph, items, code = [], [], [], None

    def close():
        if paragraph:
            written.append(f'<p>{inline(" ".join(paragraph))}</p>')
        if items:
            written.append('<ul>' + ''.join(f'<li>{inline(item)}</li>' for item in items) + '</ul>')
        paragraph.clear()
        items.clear()

    for line in lines:
        if line.startswith('```'):
            close()
            if code is not None:
                written.append('<pre>' + html.escape('\n'.join(code)) + '</pre>')
            code = [] if code is None else None
        elif code is not None:
            code.append(line)
        elif not line:
            close()
        elif line.startswith('#'):
            close()
            written.append(f'<p><b>{inline(line.lstrip("# "))}</b></p>')
        elif line.startswith('- '):
            if paragraph:
                close()
            items.append(line[2:])
        elif items:
            items[-1] += ' ' + line
        else:
            paragraph.append(line)
    close()
    return '\n'.join(written)
