"""The tables of docs/FORMATS.md: what a line means, and what to do."""
import os
import re

from explaining.texts import read_text

PAGE = os.path.join(os.path.dirname(os.path.realpath(__file__)), '..', '..', 'docs', 'FORMATS.md')
NUMBERS = ('LINE', 'K', 'COUNT', 'STATUS')
HOLES = NUMBERS + ('P', 'D', 'S', 'P1,P2', 'PATH', 'FILE', 'NAME', 'TASK', 'VARIABLE', 'STEP', 'REASON', 'AREA')


def table(heading):
    """The cells of the first table behind a heading, without its head."""
    lines = iter(read_text(PAGE).split('\n'))
    for line in lines:
        if line.lstrip('#') == ' ' + heading:
            break
    rows = []
    for line in lines:
        if line.startswith('|'):
            rows.append([cell.strip() for cell in re.split(r'(?<!\\)\|', line)[1:-1]])
        elif rows or line.startswith('#'):
            break
    return rows[2:]


def plain(cell):
    """A cell without links: the heading that a link leads to is said to be of the page."""
    return re.sub(r'\[([^]]*)\]\(#[^)]*\)', r'\1 in docs/FORMATS.md', cell).replace('\\|', '|')


class Row:
    """A row of "All lines of a report": its form, and what is said of lines of this form."""

    def __init__(self, cells):
        self.form, self.statuses = cells[0].strip('`'), cells[1].split(', ')
        self.means, self.to_do = plain(cells[2]), plain(cells[3])
        self.words = self.form.split(' ')
        self.pattern = re.compile(' '.join(self.word_pattern(at) for at in range(len(self.words))), re.DOTALL)

    def word_pattern(self, at):
        """What the word at a place of the form matches: itself, or what may stand for it."""
        word = self.words[at]
        if word not in HOLES:
            return re.escape(word)
        if word in NUMBERS:
            return r'(?P<%s>\d+)' % word
        anything = word in ('FILE', 'PATH', 'NAME') or at == len(self.words) - 1
        return '(?P<%s>%s)' % (word.replace(',', '_'), '.*' if anything else '[^ ]*')

    def match(self, line):
        """What a line has in the place of each word in capitals; None if it has another form."""
        found = self.pattern.fullmatch(line)
        return None if found is None else {name.replace('_', ','): text for name, text in found.groupdict().items()}


def filled(sentence, told):
    """A sentence with what a line tells in the place of the words in capitals."""
    if not told:
        return sentence
    names = sorted(told, key=len, reverse=True)
    return re.sub(r'(?<![\w-])(%s)(?![\w-])' % '|'.join(map(re.escape, names)), lambda name: told[name[1]], sentence)


def rows():
    """The rows of all lines of a report, the form with the most words of its own first."""
    found = [Row(cells) for cells in table('All lines of a report')]
    return sorted(found, key=lambda row: -sum(word not in HOLES for word in row.words))


def reasons():
    """What a reason why a line fails means, and what to do."""
    return {cells[0].strip('`'): (plain(cells[2]), plain(cells[3])) for cells in table('Why a line fails')}


def usage():
    """The words of the command line, with what each asks for."""
    lines = []
    for words, asked in table('The words'):
        lines += ['%-26s %s' % (one.strip('` '), plain(asked)) for one in words.split('`, `')]
    return lines
