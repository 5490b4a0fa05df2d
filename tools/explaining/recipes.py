"""The recipes, read for where a command or a dependency stands: more simply than the program, and past faults."""
import re

from explaining import feed
from explaining.makes import Expansion, NoValue, arguments, closing, words_of
from explaining.texts import text_at

PRESET = {'TARGET_DIR': '/output/target', 'STAGING_DIR': '/output/staging', 'HOST_DIR': '/output/host',
          'BUILD_DIR': '/output/build', 'INSTALL': 'install', 'SED': 'sed -i -e'}
SETTING = re.compile(r'([^\x00-\x20:#=$()?+]+)[ \t]*(=|:=|\+=|\?=)[ \t]*(.*)', re.DOTALL)
CONDITION = re.compile(r'(ifeq|ifneq|ifdef|ifndef)[ \t]+(.*)', re.DOTALL)
STEPS = {'extract': 'EXTRACT', 'patch': 'PATCH', 'configure': 'CONFIGURE', 'build': 'BUILD', 'host': 'INSTALL',
         'staging': 'INSTALL_STAGING', 'target': 'INSTALL_TARGET'}
LISTS = ('_DEPENDENCIES', '_EXTRACT_DEPENDENCIES', '_PATCH_DEPENDENCIES')


class Piece:
    """A part of a variable's text that stands on one line, with the line."""

    def __init__(self, text, path, number, line, before=''):
        self.text, self.path, self.number, self.line, self.before = text, path, number, line, before


class Variable:
    """A variable: the pieces of its text, and whether they are expanded already."""

    def __init__(self, simple, pieces):
        self.simple, self.pieces = simple, pieces

    def text(self):
        """Its whole text."""
        return ''.join(piece.before + piece.text for piece in self.pieces)


class Command:
    """A line that a step runs: the variable and the piece that it stands in, and what it is after expansion."""

    def __init__(self, variable, piece, text):
        self.variable, self.piece, self.text = variable, piece, text.lstrip(' \t@-').rstrip(' \t')


def front_of(package):
    """What the variables of a package begin with."""
    return package.upper().replace('-', '_').replace('.', '_')


def logical_lines(text):
    """The lines of a recipe, each with its number, joined where a backslash ends one."""
    lines, at = text.split('\n'), 0
    while at < len(lines):
        number, line = at + 1, lines[at]
        while line.endswith('\\') and at + 1 < len(lines):
            at += 1
            line = line[:-1].rstrip(' \t') + ' ' + lines[at].lstrip(' \t')
        yield number, line
        at += 1


def without_comment(line):
    """A line up to the `#` that begins a comment."""
    at = 0
    while at < len(line):
        if line.startswith(('$(', '${'), at):
            try:
                at = closing(line, at + 1)
            except NoValue:
                return line
        elif line.startswith(('\\#', '$$'), at):
            at += 1
        elif line[at] == '#':
            return line[:at]
        at += 1
    return line


class Recipes:
    """All recipes: their variables, and the packages that they make with the recipe of each."""

    def __init__(self, values):
        self.variables, self.made = {}, {}
        for name, text in list(values.items()) + list(PRESET.items()):
            self.set_simple(name, text)
        for path, name in feed.recipes():
            self.read(path, name)

    def set_simple(self, name, text):
        """Sets a variable by a text that is expanded already."""
        self.variables[name] = Variable(True, [Piece(text, None, 0, '')])

    def expanded(self, text, local=()):
        """What a text stands for; the empty text if it has no value."""
        try:
            return Expansion(self.variables, local).text(text)
        except (NoValue, RecursionError):
            return ''

    def read(self, path, name):
        """Reads a recipe."""
        taken, define = [], None
        for number, line in logical_lines(text_at(path) or ''):
            words = line.split()
            if define is not None:
                define = self.in_define(define, words, Piece(line, path, number, line.strip()))
                continue
            shown, line = line.strip(), without_comment(line).lstrip(' \t').replace('\\#', '#')
            is_taken = all(one == 'taken' for one in taken)
            if words[:1] == ['define'] and len(words) > 1:
                define = (words[1] if is_taken else None, [])
            elif not self.branch(line.rstrip(' \t'), taken) and is_taken:
                self.take(line, Piece('', path, number, shown), name)

    def in_define(self, define, words, piece):
        """Takes up a line in a `define`; the define if it goes on."""
        name, pieces = define
        if words[:1] != ['endef']:
            piece.before = '\n' if pieces else ''
            pieces.append(piece)
            return define
        if name is not None:
            self.variables[name] = Variable(False, pieces)
        return None

    def branch(self, line, taken):
        """Takes up a line of a condition: each that is open is taken, waits for its other branch, or is done."""
        other, rest = re.match(r'(else\b)?[ \t]*(.*)', line, re.DOTALL).groups()
        condition = CONDITION.match(rest)
        if line == 'endif':
            del taken[-1:]
        elif other and taken:
            holds = condition is None or self.holds(*condition.groups())
            taken[-1] = 'done' if taken[-1] != 'waits' else 'taken' if holds else 'waits'
        elif condition:
            taken.append('taken' if self.holds(*condition.groups()) else 'waits')
        return bool(condition or other or line == 'endif')

    def holds(self, word, rest):
        """Whether a condition holds."""
        if word in ('ifdef', 'ifndef'):
            variable = self.variables.get(rest.strip())
            return (word == 'ifdef') == bool(variable and variable.text())
        parts = arguments(rest.strip()[1:-1], 2, '(') + ['']
        same = self.expanded(parts[0].rstrip(' \t')) == self.expanded(parts[1].lstrip(' \t'))
        return (word == 'ifeq') == same

    def take(self, line, piece, name):
        """Takes up a line that sets a variable or makes a package."""
        if line.rstrip(' \t') in ('$(eval $(generic-package))', '$(eval $(host-generic-package))'):
            made = 'host-' * line.startswith('$(eval $(host') + name
            self.made[made] = piece.path
            front = front_of(made)
            self.set_simple(front + '_NAME', made)
            self.set_simple(front + '_DIR', '/output/build/' + made)
            self.set_simple(front + '_PKGDIR', 'package/%s/' % name)
            return
        setting = SETTING.fullmatch(line)
        if setting:
            variable, sign, piece.text = setting.groups()
            self.set(variable, sign, piece)

    def set(self, name, sign, piece):
        """Sets a variable, or puts a text behind what it is."""
        old = self.variables.get(name)
        if sign == ':=' or sign == '+=' and old and old.simple:
            piece.text = self.expanded(piece.text)
        if sign == '+=' and old:
            piece.before = ' ' if old.text() else ''
            old.pieces.append(piece)
        elif sign != '?=' or old is None:
            self.variables[name] = Variable(sign == ':=', [piece])

    def settings(self, name):
        """The pieces of a variable."""
        variable = self.variables.get(name)
        return variable.pieces if variable else []

    def lines_of(self, name, package):
        """The commands of a variable."""
        variable = self.variables.get(name)
        local = {'@D': '/output/build/' + package}
        groups = []
        for piece in variable.pieces if variable else []:
            if not groups or '\n' in piece.before or '\n' in piece.text:
                groups.append([piece, ''])
            groups[-1][1] += piece.before.strip('\n') + piece.text
        for piece, text in groups:
            text = text if variable.simple else self.expanded(text, local)
            yield from (Command(name, piece, line) for line in text.split('\n') if line.strip(' \t'))

    def commands(self, package, step):
        """The commands of a step, its hooks included; None if it copies the source in their place."""
        front, word = front_of(package), STEPS[step]
        hooks = {}
        for place in ('PRE', 'POST'):
            names = words_of(self.expanded('$(%s_%s_%s_HOOKS)' % (front, place, word)))
            hooks[place] = [command for name in names for command in self.lines_of(name, package)]
        own = list(self.lines_of('%s_%s_CMDS' % (front, word), package))
        return hooks['PRE'] + own + hooks['POST']

    def listed(self, package, back):
        """The packages of a list, each with the piece of a variable that names it."""
        front = front_of(package)
        name, add = front + back, ''
        if back == '_DEPENDENCIES' and package.startswith('host-') and name not in self.variables:
            name, add = name[len('HOST_'):], 'host-'
        found = {}
        for word in words_of(self.expanded('$(%s)' % name)):
            piece = self.naming(name, word)
            word = word if word.startswith(add) else add + word
            if not add or word not in (package, 'host-toolchain', 'host-skeleton'):
                found.setdefault(word, piece)
        return found

    def naming(self, name, word):
        """The first piece of a variable whose text has a word; its first piece if none has."""
        pieces = self.settings(name)
        simple = self.variables[name].simple
        texts = [piece.text if simple else self.expanded(piece.text) for piece in pieces]
        return next((piece for piece, text in zip(pieces, texts) if word in words_of(text)), pieces[0])

    def needs(self, task):
        """The tasks that a task needs, each with the piece that says so, or None for a package's own prep."""
        package, _, part = task.rpartition(':')
        lists = [self.listed(package, back) for back in LISTS]
        if part == 'prep':
            return ([(name + ':make', piece) for name, piece in lists[1].items()] +
                    [(name + ':prep', piece) for name, piece in lists[2].items()])
        makes = dict(lists[1], **lists[0])
        return [(package + ':prep', None)] + [(name + ':make', piece) for name, piece in makes.items()]
