"""Reads the text of an image, which `br build` writes to rootfs.img, for the other tools of this folder.

The forms are those of docs/FORMATS.md, "The image". A line that isn't of its form is told with its number.
"""
import re
from collections import namedtuple

# A folder `d`, a file `f`, a link `l` or another name of a file `h`, at its path. A folder and a file have a mode, a
# file has contents, and a link or another name has the text behind it: that of the link, or the file's least path.
Entry = namedtuple('Entry', 'kind path mode contents text')

PATH = re.compile(rb'/|(/(?!\.{1,2}(/|\Z))[ -.0-~]{1,255})+')
FOLDER = re.compile(rb'd ([0-7]{4}) (/.*)')
FILE = re.compile(rb'f ([0-7]{4}) (0|[1-9][0-9]*) (/.*)')
NAME = re.compile(rb'([lh]) (/.*)')


class Misfit(Exception):
    """A line that isn't of its form."""


class Lines:
    """The lines of a text: the one that is read now, without its newline, and its number; None after the last."""

    def __init__(self, lines):
        self.lines, self.line, self.number = iter(lines), None, 0
        self.step()

    def step(self):
        """Goes to the next line."""
        line = next(self.lines, None)
        self.number += 1
        self.line = line
        if line is not None:
            self.need(line.endswith(b'\n'), 'it has no newline')
            self.line = line[:-1]

    def need(self, holds, said):
        """Ends with a Misfit at this line unless this holds."""
        if not holds:
            raise Misfit('line %d: %s' % (self.number, said))


def entries(lines):
    """The entries of an image, which is given as its lines of bytes with their newlines, one after another."""
    at, count, kinds, last = Lines(lines), 0, {}, None
    at.need(at.line == b'rootfs 1', 'not `rootfs 1`')
    at.step()
    while at.line is not None and not at.line.startswith(b'end '):
        number, entry = at.number, entry_at(at)
        fits(number, entry, kinds, last)
        kinds[entry.path] = entry.kind
        count, last = count + 1, entry.path
        yield entry
    at.need(at.line is not None, 'the image ends without `end %d`' % count)
    at.need(count > 0, 'no entry of the root')
    at.need(at.line == b'end %d' % count, 'not `end %d`' % count)
    at.step()
    at.need(at.line is None, 'there is more after the end')


def entry_at(at):
    """Reads an entry, and goes to the line after it."""
    folder, file, name = FOLDER.fullmatch(at.line), FILE.fullmatch(at.line), NAME.fullmatch(at.line)
    at.need(folder or file or name, 'no entry: %s' % shown(at.line))
    path = (folder or file or name).groups()[-1]
    at.need(PATH.fullmatch(path) and len(path) <= 1025, 'no path: %s' % shown(path))
    at.step()
    if folder:
        return Entry('d', path, int(folder[1], 8), None, None)
    if file:
        return Entry('f', path, int(file[1], 8), contents(at, path, int(file[2])), None)
    at.need(at.line is not None and at.line.startswith(b'> '), 'no text for %s' % shown(path))
    text = at.line[2:]
    at.step()
    return Entry(name[1].decode(), path, None, None, text)


def contents(at, path, size):
    """Reads the bytes of a file, 32 in each line but the last."""
    made = bytearray()
    while len(made) < size:
        digits = 2 * min(32, size - len(made))
        fits_in = at.line is not None and re.fullmatch(rb'= [0-9a-f]{%d}' % digits, at.line)
        at.need(fits_in, 'not the next %d bytes of %s' % (digits // 2, shown(path)))
        made += bytes.fromhex(at.line[2:].decode())
        at.step()
    return bytes(made)


def fits(number, entry, kinds, last):
    """Ends with a Misfit unless the entry may stand behind those before it."""
    parent = entry.path.rpartition(b'/')[0] or b'/'
    if last is None:
        said = None if (entry.kind, entry.path) == ('d', b'/') else 'the first entry is not the folder /'
    elif entry.path.split(b'/') <= last.split(b'/') or entry.path == b'/':
        said = '%s may not stand behind %s' % (shown(entry.path), shown(last))
    elif kinds.get(parent) != 'd':
        said = '%s is in no folder' % shown(entry.path)
    elif entry.kind == 'h' and kinds.get(entry.text) != 'f':
        said = '%s is another name of no file' % shown(entry.path)
    else:
        said = None
    if said:
        raise Misfit('line %d: %s' % (number, said))


def shown(text):
    """Bytes as a text of one line for a message."""
    return ascii(text[:100].decode('latin-1')) + ('..' if len(text) > 100 else '')
