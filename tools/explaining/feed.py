"""The files of the input, in the order in which the program reads them."""
import os
import stat

from explaining.texts import decoded, visible

# What is read, in this order, and what has to stand there.
TOPS = {b'Config.in': stat.S_ISREG, b'.config': stat.S_ISREG, b'package': stat.S_ISDIR, b'board': stat.S_ISDIR}
MOST_ENTRIES = 1048576
OTHER_KINDS = ((stat.S_ISFIFO, 'a named pipe'), (stat.S_ISSOCK, 'a socket'), (stat.S_ISCHR, 'a device'),
               (stat.S_ISBLK, 'a device'))


class Unreadable(Exception):
    """A path of the input that can't be read, and why."""


def kind_of(path, mode):
    """What stands at a path, in words."""
    if stat.S_ISLNK(mode):
        return 'a symbolic link, to %s' % visible(decoded(os.readlink(path)))
    if stat.S_ISREG(mode):
        return 'a file, where a folder is read'
    if stat.S_ISDIR(mode):
        return 'a folder, where a file is read'
    return next((words for is_kind, words in OTHER_KINDS if is_kind(mode)), 'no file and no folder')


class Walk:
    """A walk over the files of the input."""

    def __init__(self):
        self.entries = 0

    def files(self):
        """The path and the size of each file in its order; Unreadable at the first that can't be read."""
        waiting = [path for path in reversed(list(TOPS)) if os.path.lexists(path)]
        while waiting:
            path = waiting.pop()
            try:
                size, names = self.visit(path)
            except OSError as error:
                raise Unreadable(decoded(path), error.strerror or str(error))
            if names is None:
                yield decoded(path), size
            else:
                waiting += [path + b'/' + name for name in reversed(names)]

    def visit(self, path):
        """The size of the file at a path and no names, or the names in the folder there."""
        found = os.lstat(path)
        is_folder = stat.S_ISDIR(found.st_mode)
        is_right = TOPS.get(path, stat.S_ISDIR if is_folder else stat.S_ISREG)
        if not is_right(found.st_mode):
            raise Unreadable(decoded(path), 'it is ' + kind_of(path, found.st_mode))
        if is_folder:
            return 0, self.names(path)
        with open(path, 'rb') as file:
            file.read(1)
        return found.st_size, None

    def names(self, path):
        """The names in a folder, in order."""
        names = sorted(os.listdir(path))
        self.entries += len(names)
        if self.entries > MOST_ENTRIES:
            raise Unreadable(decoded(path), 'with this folder there are more than 1,048,576 entries')
        for name in names:
            try:
                name.decode('utf-8')
            except UnicodeDecodeError:
                raise Unreadable(decoded(path + b'/' + name), "its name isn't UTF-8")
        return names


def first_unreadable():
    """The first path that can't be read, and why; None if all can be read."""
    try:
        for _ in Walk().files():
            pass
    except Unreadable as fault:
        return fault.args
    return None


def readable():
    """The paths and sizes of the files up to the first that can't be read."""
    found = []
    try:
        for file in Walk().files():
            found.append(file)
    except Unreadable:
        pass
    return found


def recipes():
    """The paths of the recipes by their bytes, as (path, name of the package)."""
    if not os.path.isdir('package'):
        return []
    names = [decoded(name) for name in os.listdir(b'package')]
    paths = sorted((('package/%s/%s.mk' % (name, name)).encode('utf-8', 'surrogateescape'), name) for name in names)
    return [(decoded(path), name) for path, name in paths if os.path.isfile(path)]
