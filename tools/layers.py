"""Places the packages of a plan in columns, for tools/graph-depends: each stands to the right of all that it needs.

A net is all lines to one package. Where it passes a column it has one lane there, which all of these lines share, so
that no line runs through a box. The packages of a column are put in order, and moved up and down, so that lines are
short: from left to right and back, each goes to the mean of those that it is joined to, as near as the others of its
column allow.
"""
from collections import Counter

ROWS = 40       # packages in a column
SWEEPS = 60
BOX = 22        # the height of a box with up to three lines at its left
GAP = 8         # between two boxes
LANE = 7        # the height of a lane
PORT = 6        # between two lines at a box


class Item:
    """A box, or the lane of a net in a column: `y` is its middle, and its height has the gap to the next one."""

    def __init__(self, column, height, name=None):
        self.column, self.height, self.name, self.y = column, height, name, 0.0
        self.lefts, self.rights = [], []


class Net:
    """The lines of one kind between a package and those to its right; `items` has its box, and its lanes in order."""

    def __init__(self, left, kind):
        self.left, self.kind, self.rights, self.items = left, kind, [], []


def links(needs):
    """The needs as links of a left package, a right one and a kind, without those that follow from others.

    `make` says that the left one is made before the right one is, `prep` that it is only prepared before. `back` is a
    need of the second kind that would close a ring of packages: here the right one is prepared before the left one.
    """
    made = {user: {other for other in others if others[other]} for user, others in needs.items()}
    reach = {}
    for user in needs:
        reached(user, made, reach)
    kept = [(other, user, others[other]) for user, others in needs.items() for other in sorted(others)
            if not any(other in reach[between] for between in made[user])]
    found = [(left, right, 'make') for left, right, made_before in kept if made_before]
    for left, right, made_before in kept:
        if not made_before:
            found.append((right, left, 'back') if leads(found, right, left) else (left, right, 'prep'))
    return found


def reached(user, made, reach):
    """All packages that are made before this one; `reach` keeps them for each that was asked."""
    open_ones = [user]
    while open_ones:
        name = open_ones[-1]
        wanting = [other for other in made[name] if other not in reach]
        if not wanting:
            reach[name] = set(made[name]).union(*(reach[other] for other in made[name]))
            open_ones.pop()
        open_ones += wanting
    return reach[user]


def leads(found, start, goal):
    """Whether the links lead from one package to the right to another."""
    seen, open_ones = {start}, [start]
    while open_ones:
        name = open_ones.pop()
        for left, right, _ in found:
            if left == name and right not in seen:
                seen.add(right)
                open_ones.append(right)
    return goal in seen


def columns_of(names, found):
    """The column of each package: as far left as the links and the height of a column allow, then pulled right."""
    lefts, rights = neighbours(names, found)
    ahead, columns, column = lengths(names, rights), {}, 0
    while len(columns) < len(names):
        ready = [name for name in names if name not in columns and lefts[name] <= columns.keys()]
        ready.sort(key=lambda name: (-ahead[name], max((columns[left] for left in lefts[name]), default=-1), name))
        columns.update(dict.fromkeys(ready[:ROWS], column))
        column += 1
    pull(columns, lefts, rights)
    used = sorted(set(columns.values()))
    return {name: used.index(columns[name]) for name in names}


def neighbours(names, found):
    """For each package those at the left ends of its links, and those at the right ends."""
    lefts, rights = {name: set() for name in names}, {name: set() for name in names}
    for left, right, _ in found:
        lefts[right].add(left)
        rights[left].add(right)
    return lefts, rights


def lengths(names, rights):
    """For each package the number of links in the longest way to the right."""
    made, open_ones = {}, list(names)
    while open_ones:
        name = open_ones[-1]
        wanting = [other for other in rights[name] if other not in made]
        if not wanting:
            made[name] = max((made[other] + 1 for other in rights[name]), default=0)
            open_ones.pop()
        open_ones += wanting
    return made


def pull(columns, lefts, rights):
    """Moves packages to the right where that makes the nets shorter, the last columns first."""
    count = Counter(columns.values())
    for name in sorted(columns, key=lambda name: (-columns[name], name)):
        if not rights[name]:
            continue
        ends = [max((columns[other] for other in rights[left] if other != name), default=columns[left])
                for left in lefts[name]]
        first, last = columns[name], min(columns[right] for right in rights[name]) - 1
        free = [column for column in range(first, last + 1) if column == first or count[column] < ROWS]
        best = min(free, key=lambda column: (sum(max(0, column - end) for end in ends) - column, column))
        count[first] -= 1
        count[best] += 1
        columns[name] = best


def nets_of(columns, found):
    """The nets, with their items, and the boxes of the packages."""
    nets = {}
    for left, right, kind in found:
        nets.setdefault((left, kind), Net(left, kind)).rights.append(right)
    ports = Counter(right for _, right, _ in found)
    boxes = {name: Item(column, max(BOX, PORT * (ports[name] + 1)) + GAP, name) for name, column in columns.items()}
    for net in nets.values():
        first, last = columns[net.left], max(columns[right] for right in net.rights)
        net.items = [boxes[net.left]] + [Item(column, LANE) for column in range(first + 1, last)]
        for left, right in zip(net.items, net.items[1:]):
            join(left, right)
        for right in net.rights:
            join(net.items[columns[right] - first - 1], boxes[right])
    return list(nets.values()), boxes


def join(left, right):
    """Joins an item with one in the next column."""
    left.rights.append(right)
    right.lefts.append(left)


def arrange(nets, boxes):
    """Gives each item its place in its column."""
    items = sorted(boxes.values(), key=lambda item: item.name) + [item for net in nets for item in net.items[1:]]
    count = 1 + max(item.column for item in items)
    columns = [[item for item in items if item.column == column] for column in range(count)]
    for column in columns:
        spread(column, [0.0] * len(column))
    best = None
    for sweep in range(SWEEPS):
        for column in columns if sweep % 2 == 0 else reversed(columns):
            settle(column, sweep)
        length = sum(abs(item.y - right.y) for item in items for right in item.rights)
        if best is None or length < best[0]:
            best = length, [list(column) for column in columns], [item.y for item in items]
    for item, y in zip(items, best[2]):
        item.y = y
    straighten(best[1])
    top = min(item.y - item.height / 2 for item in items)
    for item in items:
        item.y = float(round(item.y - top))


def settle(column, sweep):
    """Puts the items of a column in the order of what they are joined to, on one side or, later on, on both."""
    wished = {}
    for item in column:
        sides = item.lefts + item.rights if sweep >= SWEEPS // 2 else item.rights if sweep % 2 else item.lefts
        wished[item] = sum(other.y for other in sides) / len(sides) if sides else item.y
    column.sort(key=lambda item: (wished[item], item.y))
    spread(column, [wished[item] for item in column])


def straighten(columns):
    """Moves items within their order so that lanes are straight."""
    for sweep in range(SWEEPS):
        for column in columns if sweep % 2 == 0 else reversed(columns):
            spread(column, [middle(item) for item in column])


def middle(item):
    """The mean of what an item is joined to, where the two ends of a lane count most."""
    weights = [(8 if not (item.name or other.name) else 2 if not (item.name and other.name) else 1, other.y)
               for other in item.lefts + item.rights]
    return sum(weight * y for weight, y in weights) / sum(weight for weight, _ in weights) if weights else item.y


def spread(column, wished):
    """Places items, in their order, as near to their wishes as can be; those that would overlap share their mean."""
    pools, offset, offsets = [], 0.0, []
    for item, wish in zip(column, wished):
        offset += item.height / 2
        offsets.append(offset)
        pool = [wish - offset, 1]
        while pools and pools[-1][0] / pools[-1][1] >= pool[0] / pool[1]:
            total, count = pools.pop()
            pool = [pool[0] + total, pool[1] + count]
        pools.append(pool)
        offset += item.height / 2
    starts = [total / count for total, count in pools for _ in range(count)]
    for item, start, offset in zip(column, starts, offsets):
        item.y = start + offset
