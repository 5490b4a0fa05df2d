"""What a text of a recipe stands for."""
import re

MOST_COST = 1 << 20
CALL = re.compile(r'(subst|strip|addprefix|addsuffix|filter-out|filter|patsubst|sort|firstword|if|foreach|call)[ \t]+')
LEAST_ARGUMENTS = {'subst': 3, 'patsubst': 3, 'foreach': 3, 'addprefix': 2, 'addsuffix': 2, 'filter': 2,
                   'filter-out': 2, 'if': 2, 'call': 2}
MOST_ARGUMENTS = {'strip': 1, 'sort': 1, 'firstword': 1, 'if': 3, 'call': None, 'subst': 3, 'patsubst': 3, 'foreach': 3}


class NoValue(Exception):
    """A text has no value."""


def words_of(text):
    """The words of a text."""
    return [word for word in re.split('[ \t\n]+', text) if word]


def closing(text, at):
    """The place of the bracket that closes the one at a place."""
    opens, closes = text[at], {'(': ')', '{': '}'}[text[at]]
    depth = 0
    for place in range(at, len(text)):
        depth += (text[place] == opens) - (text[place] == closes)
        if depth == 0:
            return place
    raise NoValue('a reference is not closed')


def arguments(text, most, bracket):
    """The parts of a text between commas that stand in no bracket of the kind."""
    parts, depth, closes = [''], 0, {'(': ')', '{': '}'}[bracket]
    for sign in text:
        depth += (sign == bracket) - (sign == closes)
        if sign == ',' and depth == 0 and (most is None or len(parts) < most):
            parts.append('')
        else:
            parts[-1] += sign
    return parts


def matched(pattern, word):
    """What `%` of a pattern stands for in a word, or ''; None if the word doesn't match."""
    before, percent, behind = pattern.partition('%')
    if not percent:
        return '' if pattern == word else None
    fits = word.startswith(before) and word.endswith(behind) and len(word) >= len(before) + len(behind)
    return word[len(before):len(word) - len(behind)] if fits else None


class Expansion:
    """One expansion: the variables, what stands for something in it, and the names whose values are asked for."""

    def __init__(self, variables, local):
        self.variables, self.local, self.asked, self.cost = variables, dict(local), [], 0

    def text(self, text):
        """What a text stands for."""
        made, at = [], 0
        while at < len(text):
            dollar = text.find('$', at)
            if dollar < 0:
                made.append(text[at:])
                break
            made.append(text[at:dollar])
            following = text[dollar + 1:dollar + 2]
            if following == '$':
                made.append('$')
                at = dollar + 2
            elif following in ('(', '{'):
                end = closing(text, dollar + 1)
                made.append(self.reference(text[dollar + 2:end], following))
                at = end + 1
            else:
                raise NoValue('a $ begins no reference')
        self.pay(sum(map(len, made)))
        return ''.join(made)

    def pay(self, cost):
        """Counts what an expansion costs."""
        self.cost += cost + 1
        if self.cost > MOST_COST or len(self.asked) > 200:
            raise NoValue('too costly')

    def reference(self, inner, bracket):
        """What a reference stands for."""
        call = CALL.match(inner)
        if call:
            return self.call(call[1], inner[call.end():], bracket)
        return self.value(self.text(inner))

    def value(self, name):
        """The value of a variable."""
        if name in self.local:
            return self.local[name]
        if name in self.asked:
            raise NoValue('%s asks for itself' % name)
        variable = self.variables.get(name)
        if variable is None:
            return ''
        if variable.simple:
            self.pay(len(variable.text()))
            return variable.text()
        self.asked.append(name)
        value = self.text(variable.text())
        self.asked.pop()
        return value

    def call(self, name, inner, bracket):
        """What a function makes."""
        most = MOST_ARGUMENTS.get(name, 2)
        given = arguments(inner, most, bracket)
        if len(given) < LEAST_ARGUMENTS.get(name, 1):
            raise NoValue('too few arguments')
        if name == 'if':
            branch = 1 if self.text(given[0].strip(' \t\n')) else 2
            return self.text(given[branch]) if branch < len(given) else ''
        if name == 'foreach':
            return self.each(given)
        return getattr(self, 'do_' + name.replace('-', '_'))(*[self.text(part) for part in given])

    def each(self, given):
        """A text for each word of a list."""
        name, made = self.text(given[0]).strip(), []
        for word in words_of(self.text(given[1])):
            outer, self.local = self.local, dict(self.local, **{name: word})
            made.append(self.text(given[2]))
            self.local = outer
        return ' '.join(made)

    def do_subst(self, old, new, text):
        """Each F in a text becomes T."""
        if not old:
            raise NoValue('subst of an empty text')
        return text.replace(old, new)

    def do_strip(self, text):
        """The words with one space between two."""
        return ' '.join(words_of(text))

    def do_addprefix(self, prefix, text):
        """A text before each word."""
        return ' '.join(prefix + word for word in words_of(text))

    def do_addsuffix(self, suffix, text):
        """A text behind each word."""
        return ' '.join(word + suffix for word in words_of(text))

    def do_filter(self, patterns, text):
        """The words that match."""
        patterns = words_of(patterns)
        return ' '.join(word for word in words_of(text) if any(matched(one, word) is not None for one in patterns))

    def do_filter_out(self, patterns, text):
        """The words that do not match."""
        patterns = words_of(patterns)
        return ' '.join(word for word in words_of(text) if all(matched(one, word) is None for one in patterns))

    def do_patsubst(self, pattern, new, text):
        """Another word for each that matches."""
        made = []
        for word in words_of(text):
            stem = matched(pattern, word)
            made.append(word if stem is None else new.replace('%', stem, 1) if '%' in pattern else new)
        return ' '.join(made)

    def do_sort(self, text):
        """The words in order, each once."""
        return ' '.join(sorted(set(words_of(text))))

    def do_firstword(self, text):
        """The first word."""
        return (words_of(text) or [''])[0]

    def do_call(self, name, text, *_):
        """`qstrip`, which is all that is called."""
        if name != 'qstrip':
            raise NoValue('call of %s' % name)
        return ' '.join(words_of(text.replace('"', '')))
