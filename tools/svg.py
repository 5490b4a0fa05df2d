"""Writes SVG for the other tools of this folder: texts in letters of one width, boxes and lines."""

FONTS = "'DejaVu Sans Mono', 'Liberation Mono', Menlo, Consolas, 'Courier New', monospace"
ESCAPES = str.maketrans({'&': '&amp;', '<': '&lt;', '>': '&gt;', '"': '&quot;'})


def escaped(text):
    """A text as it stands in SVG."""
    return text.translate(ESCAPES)


def width_of(text, size):
    """The width of a text in letters of this size: that of the widest of the fonts."""
    return len(text) * size * 0.61


def shortened(text, most):
    """The text, or where it has more letters than `most` its front and its end."""
    if len(text) <= most:
        return text
    end = (most - 2) // 2
    return text[:most - 2 - end] + '..' + text[len(text) - end:]


def element(name, content='', **attributes):
    """An element with these attributes, where a `_` in a name stands for a `-` and one at its end for nothing."""
    said = ''.join(' %s="%s"' % (key.rstrip('_').replace('_', '-'), escaped(written(value)))
                   for key, value in attributes.items())
    return '<%s%s>%s</%s>' % (name, said, content, name) if content else '<%s%s/>' % (name, said)


def written(value):
    """A number with at most one digit behind its point, or any other value as it is."""
    return ('%.1f' % value).removesuffix('.0') if isinstance(value, float) else str(value)


def title(text):
    """What is shown while the pointer rests on the element around it."""
    return element('title', escaped(text))


def text(x, y, words, **attributes):
    """A text that begins at x, with y as its base line."""
    return element('text', escaped(words), x=x, y=y, **attributes)


def document(width, height, style, parts):
    """The whole picture, with its size, a style sheet and its parts, one on each line."""
    head = element('style', '\ntext { font-family: %s}\n%s\n' % (FONTS, style.strip()))
    back = element('rect', width='100%', height='100%', fill='#fff')
    lines = ['<svg xmlns="http://www.w3.org/2000/svg" xml:space="preserve" width="%d" height="%d" viewBox="0 0 %d %d">'
             % (width, height, width, height)]
    return '\n'.join(lines + [head, back] + parts + ['</svg>', ''])
