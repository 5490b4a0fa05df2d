"""Reads what `br plan` writes, for the other tools of this folder.

Each line is a task and the tasks that it needs, as `zlib:make musl:make zlib:prep`; a task is `NAME:prep` or
`NAME:make`, and what it needs stands in earlier lines. A line that isn't of this form is told with its number.
"""
import re

TASK = re.compile(rb'(?!(?:host|target|staging|build):)(?:host-)?[a-z0-9][a-z0-9._-]{0,254}:(?:prep|make)')


class Misfit(Exception):
    """A line that isn't of its form."""


def tasks(lines):
    """The tasks of a plan, given as its lines of bytes: for each the tasks that it needs, in the order of the plan."""
    made = {}
    for number, line in enumerate(lines, 1):
        said = fault_of(line, made)
        if said:
            raise Misfit('line %d: %s' % (number, said))
        task, *needs = line[:-1].decode('ascii').split(' ')
        made[task] = needs
    for task in made:
        name, _, step = task.rpartition(':')
        if step == 'prep' and name + ':make' not in made:
            raise Misfit('the plan ends without %s:make' % name)
    return made


def fault_of(line, made):
    """What is wrong with a line behind these tasks, or None."""
    words = line[:-1].split(b' ')
    if line.startswith(b'fault '):
        return '`br plan` found a fault: ' + shown(line.rstrip(b'\n'))
    if not line.endswith(b'\n'):
        return 'it has no newline'
    for word in words:
        if not TASK.fullmatch(word):
            return 'no task: ' + shown(word)
    task, *needs = [word.decode('ascii') for word in words]
    if task in made:
        return '%s stands there already' % task
    for need in needs:
        if need not in made:
            return '%s needs %s, which is in no earlier line' % (task, need)
    name, _, step = task.rpartition(':')
    if step == 'make' and name + ':prep' not in needs:
        return '%s does not need %s:prep' % (task, name)


def shown(text):
    """Bytes as a text of one line for a message."""
    return ascii(text[:100].decode('latin-1')) + ('..' if len(text) > 100 else '')


def needs(tasks):
    """For each package, by name, those that it needs: true where they are made before, false where only prepared."""
    made = {name: {} for name in sorted({task.rpartition(':')[0] for task in tasks})}
    for task, needed in tasks.items():
        user = task.rpartition(':')[0]
        for other in needed:
            name, _, step = other.rpartition(':')
            if name != user:
                made[user][name] = made[user].get(name, False) or step == 'make'
    return made


def chain(needs, package):
    """The package with all that it needs, by way of others too."""
    found, open_ones = {package}, [package]
    while open_ones:
        for other in needs[open_ones.pop()]:
            if other not in found:
                found.add(other)
                open_ones.append(other)
    return found
