"""The configuration's files, read for what names what: more simply than the program, and past what is wrong there."""
import re

from explaining.texts import text_at

TOKEN = re.compile(r'''"(?:\\.|[^"\\])*"|'(?:\\.|[^'\\])*'|[A-Za-z0-9_.-]+|#.*|.''')
TYPES = ('bool', 'string', 'int')
ENDS = ('endmenu', 'endif', 'endchoice')


class Said:
    """A line that belongs to an entry or a block: its first word, the words behind it, and its place."""

    def __init__(self, words, path, number, text):
        self.kind, self.words, self.path, self.number, self.text = words[0], words[1:], path, number, text

    def condition(self):
        """The words behind `if`."""
        return self.words[self.words.index('if') + 1:] if 'if' in self.words else []


class Block:
    """An entry, a menu, a choice, a condition or a comment, with its lines and the blocks round it."""

    def __init__(self, head, around):
        self.head, self.around, self.lines = head, around, []

    def of_kind(self, *kinds):
        """Its lines of these kinds."""
        return [line for line in self.lines if line.kind in kinds]

    def dependencies(self):
        """The lines that it depends on, those of the blocks round it included."""
        lines = [line for block in self.around + [self] for line in block.of_kind('depends')]
        return lines + [block.head for block in self.around if block.head.kind == 'if']

    def choice(self):
        """The choice that it stands in, or None."""
        return next((block for block in reversed(self.around) if block.head.kind == 'choice'), None)


class Menu:
    """All entries of the configuration, in reading order."""

    def __init__(self):
        self.entries, self.open, self.reading = [], [], []
        self.last = None
        self.read('Config.in')

    def read(self, path):
        """Reads a file and what it sources."""
        text = text_at(path)
        if text is None or path in self.reading or len(self.reading) > 64:
            return
        self.reading.append(path)
        lines, at = text.split('\n'), 0
        while at < len(lines):
            number, line = at + 1, lines[at]
            while line.endswith('\\') and at + 1 < len(lines):
                at += 1
                line = line[:-1] + ' ' + lines[at]
            at += 1
            words = [word for word in TOKEN.findall(line) if word.strip() and word[0] != '#']
            if words[:1] == ['help'] or ''.join(words) == '---help---':
                at = behind_help(lines, at)
            elif words:
                self.take(Said(words, path, number, line))
        self.reading.pop()

    def take(self, line):
        """Takes a line up."""
        if line.kind == 'source' and line.words:
            self.last = None
            self.read(line.words[0][1:-1])
        elif line.kind in ENDS:
            self.open, self.last = self.open[:-1], None
        elif line.kind in ('config', 'menuconfig', 'comment', 'menu', 'if', 'choice'):
            self.begin(line)
        elif self.last:
            self.last.lines.append(line)

    def begin(self, line):
        """Begins an entry or a block."""
        self.last = Block(line, list(self.open))
        if line.kind in ('menu', 'if', 'choice'):
            self.open.append(self.last)
        elif line.kind != 'comment' and line.words:
            self.entries.append(self.last)

    def entries_of(self, symbol):
        """The entries of a symbol."""
        return [entry for entry in self.entries if entry.head.words[0] == symbol]

    def selects_of(self, symbol):
        """The selects that name a symbol, each with its entry."""
        found = [(entry, line) for entry in self.entries for line in entry.of_kind('select')]
        return [(entry, line) for entry, line in found if line.words[:1] == [symbol]]

    def names(self, symbol):
        """The symbols that the value of a symbol asks for, each with the line that says so."""
        named = [(word, line) for line, words in self.asked(symbol) for word in words]
        declared = {entry.head.words[0] for entry in self.entries}
        return [(word, line) for word, line in named if word in declared]

    def asked(self, symbol):
        """The lines that stand in the equation of a symbol, each with its words that may be symbols."""
        for entry in self.entries_of(symbol):
            yield from shown(entry)
            for line in entry.of_kind('default', 'def_bool'):
                yield line, line.words
        for entry, line in self.selects_of(symbol):
            yield line, entry.head.words[:1] + line.condition()
            yield from ((depends, depends.words) for depends in entry.dependencies())
        for choice in {entry.choice() for entry in self.entries_of(symbol)} - {None}:
            yield from self.asked_by_choice(choice)

    def asked_by_choice(self, choice):
        """The same of a choice."""
        yield from shown(choice)
        members = [entry for entry in self.entries if entry.choice() is choice]
        own = {member.head.words[0] for member in members}
        for line in choice.of_kind('default'):
            yield line, [word for word in line.words[:1] if word not in own] + line.condition()
        for member in members:
            yield from shown(member)


def shown(block):
    """The dependencies of a block and the conditions of its prompts."""
    for line in block.dependencies():
        yield line, line.words
    for line in block.of_kind('prompt', *TYPES):
        yield line, line.condition()


def behind_help(lines, at):
    """The place behind a block of text that begins at a place."""
    indent = None
    while at < len(lines):
        line = lines[at].expandtabs(8)
        if line.strip():
            found = len(line) - len(line.lstrip(' '))
            indent = found if indent is None else indent
            if found < indent or found == 0:
                break
        at += 1
    return at
