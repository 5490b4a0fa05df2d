"""What is found in the files for each line of a report: a function for each kind of line, from what the line tells."""
import difflib
import os
import re
import subprocess

from explaining import feed, pages
from explaining.makes import words_of
from explaining.menus import Menu
from explaining.recipes import LISTS, Recipes, front_of
from explaining.texts import decoded, encoded, line_at, placed, shortest, text_at

MOST = 8
REFERENCE = re.compile(r'\$[({]([^(){}$, \t\n]+)[)}]')
PACKAGE = re.compile(r'(?!host-)[a-z0-9][a-z0-9_.-]*')


def some(lines):
    """Lines, the first few if there are many."""
    return lines if len(lines) <= MOST else lines[:MOST] + ['.. and %d more' % (len(lines) - MOST)]


def of_said(said):
    """The lines of the configuration's files, each with its place."""
    return [one for line in said for one in placed(line.path, line.number, line.text.strip())]


def of_piece(piece):
    """The line of a recipe that a piece of a variable stands on, with its place."""
    return '%s:%d: %s' % (piece.path, piece.number, piece.line)


def of_variable(recipes, name):
    """The lines that set a variable."""
    return [of_piece(piece) for piece in recipes.settings(name) if piece.path]


def values(asked):
    """The values of the configuration: those that the program gives, or else what `.config` says."""
    lines = config_lines(asked.program) if asked.program else None
    lines = (text_at('.config') or '').split('\n') if lines is None else lines
    found = [line.split('=', 1) for line in lines if '=' in line and line[0] != '#']
    return {name: preset(text) for name, text in found if text != 'n'}


def preset(text):
    """The text of a symbol in recipes: a string keeps its quotes, without the backslashes in it."""
    return '"%s"' % re.sub(r'\\(.)', r'\1', text[1:-1]) if text.startswith('"') else text


def config_lines(program):
    """What the program says to `config`; None if it has no answer."""
    try:
        config = subprocess.run([program, 'config'], stdin=subprocess.DEVNULL, stdout=subprocess.PIPE,
                                stderr=subprocess.DEVNULL, timeout=20)
    except (OSError, subprocess.SubprocessError):
        return None
    return decoded(config.stdout).split('\n') if config.returncode == 0 else None


def recipes_of(asked):
    """The recipes at the values of the configuration; they are read once."""
    if not hasattr(asked, 'recipes'):
        asked.recipes = Recipes(values(asked))
    return asked.recipes


def symbol_of(package):
    """The symbol of a package."""
    return 'BR2_PACKAGE_' + front_of(package)


def wishes_of(symbol):
    """The lines of `.config` that speak of a symbol."""
    lines = enumerate((text_at('.config') or '').split('\n'), 1)
    return [one for number, line in lines if re.match(r'(# )?%s\b' % re.escape(symbol), line)
            for one in placed('.config', number, line)]


def alike(name, names):
    """That a name is like others."""
    return ['like it: ' + other for other in difflib.get_close_matches(name, sorted(names), 3)]


# The words and the files.

def words(names, asked):
    """The word that does not fit, and what the words are."""
    place, given = int(names['K']), asked.words
    found = []
    if given is not None and place < len(given):
        found.append('word %d is `%s`' % (place, given[place]))
    elif given:
        found.append('a word is missing behind `%s`' % ' '.join(given))
    return found + ['the words are'] + ['  ' + line for line in pages.usage()]


def unread(_, asked):
    """The first path that can't be read, and why."""
    found = feed.first_unreadable()
    return ['%s: %s' % found] if found else ['all files can be read now; they were changed since']


def path(names, asked):
    """The file that has no path, and what is wrong with its name."""
    files = feed.readable()
    if int(names['K']) >= len(files):
        return ['there are %d files now; they were changed since' % len(files)]
    name = files[int(names['K'])][0]
    too_long = ['its path has %d bytes' % len(encoded(name))] if len(encoded(name)) > 1024 else []
    wrong = sorted(set(re.findall('[^\x20-\x7e]', name)))
    return [name] + too_long + ['it has %s' % ascii(sign) for sign in wrong]


def twice(names, asked):
    """The files at, above and below the path."""
    own = names['PATH']
    found = [name for name, _ in feed.readable()
             if name == own or name.startswith(own + '/') or own.startswith(name + '/')]
    return some(['%s is there' % name for name in found]) or ['no file stands there now; they were changed since']


def count(_, asked):
    """How many files each folder has."""
    tops = [name.split('/')[0] for name, _ in feed.readable()]
    return ['%s: %d files' % (top, tops.count(top)) for top in ('package', 'board')]


def size(_, asked):
    """How large the files are, and the largest."""
    files = sorted(feed.readable(), key=lambda file: -file[1])
    total = sum(size for _, size in files)
    return ['all files: %d bytes' % total] + ['%s: %d bytes' % file for file in files[:3]]


def sinks(asked):
    """Which of standard output and the image can't be written, and why."""
    if asked.cannot_write:
        return ['standard output: ' + asked.cannot_write]
    if os.path.isdir('rootfs.img'):
        return ['rootfs.img is a folder']
    try:
        os.close(os.open('rootfs.img', os.O_WRONLY))
    except FileNotFoundError:
        pass
    except OSError as error:
        return ['rootfs.img: ' + error.strerror]
    return []


# The configuration.

def config(names, asked):
    """The line of the configuration, and other entries of its symbol."""
    if 'FILE' not in names:
        return ['the current folder is ' + os.getcwd()]
    place, number = names['FILE'], int(names['LINE'])
    found = line_at(place, number)
    menu = Menu()
    symbols = [entry.head.words[0] for entry in menu.entries if near(entry, place, number)]
    others = [entry for entry in menu.entries_of(symbols[0]) if not near(entry, place, number)] if symbols else []
    return found + [line for entry in others[:3] for line in entry_lines(entry)]


def near(entry, place, number):
    """Whether the line at a place is the entry's, or one of its lines."""
    return any((line.path, line.number) == (place, number) for line in [entry.head] + entry.lines)


def entry_lines(entry):
    """The first line of an entry, and the line of its type."""
    return of_said([entry.head] + entry.of_kind('bool', 'string', 'int', 'def_bool'))


def wish(names, asked):
    """The line of `.config`."""
    return line_at('.config', int(names['LINE']))


def selected_wrongly(names, asked):
    """The selects that name the symbol, and its entries."""
    menu = Menu()
    selects = [line for _, line in menu.selects_of(names['S'])]
    return some(of_said(selects) + [line for entry in menu.entries_of(names['S']) for line in of_said([entry.head])])


def config_cycle(names, asked):
    """How the symbol asks for itself."""
    walk = shortest(names['S'], Menu().names)
    return ['%s asks for %s, by %s' % (symbol, asked_for, of_said([line])[0]) for symbol, line, asked_for in walk]


def number(names, asked):
    """What gives the number."""
    defaults = [line for entry in Menu().entries_of(names['S']) for line in [entry.head] + entry.of_kind('default')]
    return some(wishes_of(names['S']) + of_said(defaults))


def selected(names, asked):
    """What selects the symbol, and what it depends on."""
    menu = Menu()
    selects = [line for _, line in menu.selects_of(names['S'])]
    depends = [line for entry in menu.entries_of(names['S']) for line in entry.dependencies()]
    return some(['it is selected by ' + line for line in of_said(selects)] +
                ['it depends on ' + line for line in of_said(depends)])


# The recipes.

def wrong_name(names, asked):
    """The name, or the other packages with these variables."""
    name = names['PATH'].split('/')[1]
    if not PACKAGE.fullmatch(name) or name in ('host', 'target', 'staging', 'build'):
        return ['the folder is package/%s' % name]
    others = [other for _, other in feed.recipes() if other != name and front_of(other) == front_of(name)]
    return ['the variables of %s begin with %s, too' % (other, front_of(other)) for other in others]


def recipe(names, asked):
    """The line of the recipe."""
    return line_at(names['PATH'], int(names['LINE']))


def expand(names, asked):
    """The lines that set the variable, and how it asks for itself."""
    recipes = recipes_of(asked)
    if names['VARIABLE'] in ('ifeq', 'ifneq', 'ifdef', 'ifndef'):
        return some(conditions('package/%s/%s.mk' % (names['P'], names['P'])))
    own, walk = of_variable(recipes, names['VARIABLE']), asking(recipes, names.get('NAME'))
    return some((own if names['VARIABLE'] != names.get('NAME') else []) + walk)


def asking(recipes, name):
    """How the value of a variable asks for itself."""
    def steps(variable):
        """The variables that the text of a variable asks for."""
        pieces = recipes.settings(variable)
        return [(asked, piece) for piece in pieces for asked in REFERENCE.findall(piece.text) if piece.path]
    return ['%s asks for %s, by %s' % (one, other, of_piece(piece)) for one, piece, other in shortest(name, steps)]


def conditions(recipe_path):
    """The lines of a recipe that hold a condition with a reference."""
    lines = enumerate((text_at(recipe_path) or '').split('\n'), 1)
    return ['%s:%d: %s' % (recipe_path, number, line) for number, line in lines
            if re.match(r'\s*(else\s+)?ifn?(eq|def)\b', line) and '$' in line]


def patch_file(names, asked):
    """The patches that lie there."""
    folder = os.path.dirname(names['PATH'])
    found = sorted(name for name in os.listdir(encoded(folder)) if name.endswith(b'.patch'))
    return some(['%s/%s is there' % (folder, decoded(name)) for name in found])


def no_recipe(names, asked):
    """Whether the recipe is there, and what sets the symbol."""
    at = 'package/%s/%s.mk' % (names['P'], names['P'])
    found = '%s is there, and has no line that makes the package' if os.path.isfile(at) else '%s is not there'
    return [found % at] + wishes_of(symbol_of(names['P']))


def listed_by(names, asked):
    """The line of the recipe of P that lists D."""
    lists = [recipes_of(asked).listed(names['P'], back) for back in LISTS]
    return next(([of_piece(found[names['D']])] for found in lists if names['D'] in found), [])


def unknown_dependency(names, asked):
    """The line that lists the package, and packages of like names."""
    return listed_by(names, asked) + alike(names['D'], recipes_of(asked).made)


def not_selected(names, asked):
    """The line that lists the package, and the entry of the package's symbol."""
    entries = Menu().entries_of(symbol_of(names['D']))
    symbol = [line for entry in entries for line in of_said([entry.head] + entry.dependencies())]
    return listed_by(names, asked) + some(symbol or ['no line declares %s' % symbol_of(names['D'])])


def cycle(names, asked):
    """How the task needs itself."""
    walk = shortest(names['TASK'], recipes_of(asked).needs)
    return ['%s needs %s%s' % (task, needed, ', by ' + of_piece(piece) if piece else '')
            for task, piece, needed in walk]


def no_package(names, asked):
    """The recipe that makes the package, and what its symbol is."""
    package, recipes = names['P'], recipes_of(asked)
    if package not in recipes.made:
        return ['no recipe makes it'] + alike(package, recipes.made)
    own = wishes_of(symbol_of(package)) or ['.config has no line of %s' % symbol_of(package)]
    return ['%s makes it' % recipes.made[package]] + own


# A build.

def failed(names, asked):
    """The line of the recipe that failed."""
    package, step, line = names['P'], names['STEP'], int(names['LINE'])
    if line == 0:
        return ['the copy of package/%s/src' % package.replace('host-', '', 1) if step == 'extract'
                else 'the filling of the trees with what the packages that it needs installed']
    commands = recipes_of(asked).commands(package, step)
    if line > len(commands):
        return ['line %d of the step %s is not found in package/%s' % (line, step, package)]
    command = commands[line - 1]
    run = [] if command.text == command.piece.line.lstrip('@-') else ['expanded: `%s`' % command.text]
    return ['line %d of the step %s, in %s:' % (line, step, command.variable), of_piece(command.piece)] + run


def skipped(names, asked):
    """The line that lists what is not built."""
    recipes = recipes_of(asked)
    needs = [need for part in (':prep', ':make') for need in recipes.needs(names['P'] + part)]
    pieces = [piece for task, piece in needs if task == names['TASK'] and piece]
    return ['it needs %s, by %s' % (names['TASK'], of_piece(piece)) for piece in pieces[:1]]


def overwrite(names, asked):
    """The lines of each package that name the path."""
    found = []
    for package in names['P1,P2'].split(','):
        lines = writing(package, names['AREA'], names['PATH'], recipes_of(asked))
        found += ['%s: %s' % (package, line) for line in some(lines)]
    return found


def writing(package, area, place, recipes):
    """The lines of a package's recipe that name a path, or else the recipe."""
    own = '/output/%s%s' % (area, place)
    steps = ('configure', 'build') + (('host',) if package.startswith('host-') else ('staging', 'target'))
    commands = [command for step in steps for command in recipes.commands(package, step)]
    lines = [of_piece(command.piece) for command in commands
             if own in [word.rstrip('/') for word in words_of(command.text)]]
    return lines or ['%s, in no line that names the path as it is' % recipes.made.get(package, 'its recipe')]


TOLD = {'failed': failed, 'skipped': skipped, 'overwrite': overwrite, 'selected': selected}
FAULTS = {'words': words, 'feed': unread, 'path': path, 'twice': twice, 'too-many-files': count, 'too-large': size,
          'config': config, 'wish': wish, 'select-of-choice': selected_wrongly, 'select-of-value': selected_wrongly,
          'config-cycle': config_cycle, 'bad-number': number, 'wrong-name': wrong_name, 'recipe': recipe,
          'expand': expand, 'patch-file': patch_file, 'no-recipe': no_recipe, 'unknown-dependency': unknown_dependency,
          'not-selected': not_selected, 'cycle': cycle, 'no-package': no_package}
