"""Texts of any bytes: what isn't UTF-8 is kept by surrogates."""
import os
import re


def decoded(data):
    """The text of bytes."""
    return data.decode('utf-8', 'surrogateescape')


def encoded(text):
    """The bytes of a text."""
    return text.encode('utf-8', 'surrogateescape')


def read_text(path):
    """The text of the file at a path."""
    with open(encoded(path), 'rb') as file:
        return decoded(file.read())


def text_at(path):
    """The text of the file at a path; None if it isn't a file that can be read."""
    try:
        return read_text(path) if os.path.isfile(encoded(path)) else None
    except OSError:
        return None


def visible(text):
    """A text in which each byte that would be no sign on a terminal stands as `\\xNN`; a tab stays."""
    return re.sub(r'[\x00-\x08\x0a-\x1f\x7f-\x9f\udc80-\udcff]', lambda sign: '\\x%02x' % (ord(sign[0]) & 0xff), text)


def line_of(path, number):
    """The text of a line of a file, with the lines that a backslash joins to it; None if it isn't there."""
    lines = (text_at(path) or '').split('\n')
    if not 0 < number <= len(lines):
        return None
    last = number
    while lines[last - 1].endswith('\\') and last < len(lines) and last < number + 9:
        last += 1
    return '\n'.join(lines[number - 1:last])


def placed(path, number, text):
    """A line with its place before it, as `Config.in:3: bool`, or several."""
    shown = [visible(line) for line in text.split('\n')]
    return ['%s:%d: %s' % (visible(path), number + at, line) for at, line in enumerate(shown)]


def line_at(path, number):
    """The line at a place, or that it isn't there."""
    text = line_of(path, number)
    if text is None:
        return ['%s has no line %d now; it was changed since' % (visible(path), number)]
    return placed(path, number, text)


def shortest(start, steps):
    """The shortest walk from a name back to it: each a name, a step and the next; `steps` gives (next name, step)."""
    come, waiting = {}, [start]
    for name in waiting:
        for following, step in steps(name):
            if following == start:
                walk = [(name, step, following)]
                while walk[0][0] != start:
                    walk.insert(0, come[walk[0][0]])
                return walk
            if following not in come:
                come[following] = (name, step, following)
                waiting.append(following)
    return []
