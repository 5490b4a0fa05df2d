"""Draws the lines between the columns of tools/layers.py, for tools/graph-depends.

Between two columns each net runs up and down in a track of its own, or in one with others that it doesn't meet. The
tracks are put in an order in which few lines cross.
"""
from layers import GAP, PORT

TRACK = 6       # between two tracks
NEAR = 3        # two lines at less than this look like one


class Run:
    """A net between two columns: the place where it leaves the first, and those where it enters items of the next."""

    def __init__(self, net, source, y):
        self.net, self.source, self.y = net, source, y
        self.ports, self.track = {}, None

    def ends(self):
        """The highest and the lowest place of the run."""
        places = [self.y, *self.ports.values()]
        return min(places), max(places)

    def straight(self):
        """Whether the run goes neither up nor down."""
        low, high = self.ends()
        return high - low < 0.5


def runs_of(nets, boxes, width):
    """The runs behind each column but the last, with the places where they leave and enter boxes and lanes."""
    channels = [[] for _ in range(width - 1)]
    for name, box in boxes.items():
        own = sorted((net for net in nets if net.left == name), key=lambda net: net.kind)
        for number, net in enumerate(own):
            leave = box.y + PORT * (number - (len(own) - 1) / 2)
            for item in net.items:
                rights = [right for right in item.rights if right in net.items or right.name in net.rights]
                run = Run(net, item, leave if item is box else item.y)
                run.ports = dict.fromkeys(rights, 0.0)
                channels[item.column].append(run)
    for channel in channels:
        enter(channel)
    return channels


def enter(channel):
    """Gives each run the places where it enters the items of the next column."""
    for item in {right: None for run in channel for right in run.ports}:
        runs = [run for run in channel if item in run.ports]
        runs.sort(key=lambda run: (run.y, run.net.left, run.net.kind))
        if item.name is None:
            runs[0].ports[item] = item.y
            continue
        top, bottom = item.y - (item.height - GAP) / 2 + PORT, item.y + (item.height - GAP) / 2 - PORT
        taken = []
        for number, run in enumerate(runs):
            least = max(top, taken[-1] + PORT - 1 if taken else top)
            most = bottom - (PORT - 1) * (len(runs) - 1 - number)
            taken.append(free_place(min(max(run.y, least), most), least, most, run, channel))
            run.ports[item] = taken[-1]


def free_place(wish, least, most, run, channel):
    """The place nearest to the wish, between two others, at which no other net leaves the column before."""
    leaves = [other.y for other in channel if other is not run]
    steps = [step for step in range(-30, 31) if least <= wish + step <= most]
    for step in sorted(steps, key=lambda step: (abs(step), step)):
        if all(abs(wish + step - y) >= NEAR for y in leaves):
            return wish + step
    return wish


def tracks_of(channel):
    """The tracks of the runs between two columns, from left to right."""
    tracks = []
    for run in sorted((run for run in channel if not run.straight()), key=lambda run: run.ends()):
        low = run.ends()[0]
        free = [track for track in tracks if track[-1].ends()[1] + 2 * TRACK <= low]
        if free:
            max(free, key=lambda track: track[-1].ends()[1]).append(run)
        else:
            tracks.append([run])
    return ordered(tracks)


def crossings(left, right):
    """How badly the lines of two runs cross if the first has its track to the left of the other's."""
    (low, high), (least, most) = left.ends(), right.ends()
    ports = left.ports.values()
    crossed = sum(least - 1 <= y <= most + 1 for y in ports) + (low - 1 <= right.y <= high + 1)
    return crossed + 100 * sum(abs(y - right.y) < NEAR for y in ports)


def ordered(tracks):
    """The tracks in an order with few crossings: each is moved to its best place until none gets better."""
    costs = [[sum(crossings(run, other) for run in left for other in right) for right in tracks] for left in tracks]
    order, better = list(range(len(tracks))), True
    while better:
        better = False
        for track in list(order):
            old = order.index(track)
            rest = order[:old] + order[old + 1:]
            change = [0]
            for other in rest:
                change.append(change[-1] + costs[other][track] - costs[track][other])
            best = min(range(len(change)), key=lambda place: (change[place], abs(place - old)))
            if change[best] < change[old]:
                order, better = rest[:best] + [track] + rest[best:], True
    return [tracks[number] for number in order]


def points(net, right, channels, lefts, widths, boxes):
    """The corners of the line of a net to one of its packages, from the left end to the right one."""
    made, item, last = [], boxes[right], boxes[right].column
    for column in range(boxes[net.left].column, last):
        run = next(run for run in channels[column] if run.net is net)
        goal = item if column + 1 == last else net.items[column + 1 - boxes[net.left].column]
        made.append((lefts[column] + widths[column], run.y))
        if run.track is not None:
            made += [(run.track, run.y), (run.track, run.ports[goal])]
        made.append((lefts[column + 1], run.ports[goal]))
    return made
