#!/usr/bin/env python3
"""judge.py SCRIPT LISTING [FRAMES [WORKERS]]

Reads a script and the listing of a run on it, with a budget of FRAMES frames (64) and WORKERS workers (0), and says
whether the listing is legal. It shares nothing with the program: scene, separations, proposal, places and verdicts are
computed here anew from what docs/FORMATS.md says. Of each frame it is checked that its desired places are the proposal,
that its places satisfy every separation, and that its multipliers balance them (so that no placement is nearer).
Prints each complaint, and then ends with status 1.
"""
import sys
from collections import namedtuple
from fractions import Fraction
from math import gcd, isqrt

Shape = namedtuple('Shape', 'x y w h held moves')
Guide = namedtuple('Guide', 'axis at moves')
Group = namedtuple('Group', 'pad members low high')  # low and high: the anchors of its edges on X and Y
Page = namedtuple('Page', 'x y w h margin rigid')
Scene = namedtuple('Scene', 'shapes guides links compounds groups pages')  # each a dict in the order of making
Sep = namedtuple('Sep', 'left right gap exact')
Variable = namedtuple('Variable', 'name weight anchor moves')

EMPTY = Scene({}, {}, {}, {}, {}, {})
LIMITS = {'shapes': 128, 'guides': 64, 'links': 256, 'compounds': 128, 'groups': 32, 'pages': 1}
SORT = {'box': 'shapes', 'oval': 'shapes', 'diamond': 'shapes', 'guide': 'guides', 'link': 'links', 'group': 'groups',
        'page': 'pages', 'align': 'compounds', 'spread': 'compounds', 'rank': 'compounds', 'apart': 'compounds'}
FAR = 1_000_000


class Illegal(Exception):
    """The listing isn't legal."""


def want(holds, *words):
    if not holds:
        raise Illegal(' '.join(str(word) for word in words))


# ---- scenes

def size_on(shape, axis):
    return shape.w if axis == 'x' else shape.h


def place_on(shape, axis):
    return shape.x if axis == 'x' else shape.y


def find(scene, name):
    """The sort and the item of a name, or None twice."""
    for sort in Scene._fields:
        if name in getattr(scene, sort):
            return sort, getattr(scene, sort)[name]
    return None, None


def edited(scene, words):
    """The scene after an edit that it accepts."""
    command, name, rest = words[0], words[1], words[2:]

    def put(sort, item):
        return scene._replace(**{sort: {**getattr(scene, sort), name: item}})

    def take(sort):
        return scene._replace(**{sort: {n: item for n, item in getattr(scene, sort).items() if n != name}})

    sort, item = find(scene, name)
    if command in ('box', 'oval', 'diamond'):
        x, y, w, h = map(int, rest)
        return put('shapes', Shape(x, y, w, h, False, 0))
    if command == 'size':
        return put('shapes', item._replace(w=int(rest[0]), h=int(rest[1])))
    if command == 'move':
        return put('shapes', item._replace(x=int(rest[0]), y=int(rest[1]), moves=item.moves + 1))
    if command == 'shift':
        return put('guides', item._replace(at=int(rest[0]), moves=item.moves + 1))
    if command in ('hold', 'free'):
        return put('shapes', item._replace(held=command == 'hold'))
    if command in ('remove', 'unlink', 'drop'):
        return take(sort)
    if command == 'link':
        return put('links', tuple(rest))
    if command == 'guide':
        return put('guides', Guide(rest[0], int(rest[1]), 0))
    if command == 'group':
        pad, shapes = int(rest[0]), [scene.shapes[m] for m in rest[1:]]
        low = {axis: min(place_on(s, axis) for s in shapes) - pad for axis in 'xy'}
        high = {axis: max(place_on(s, axis) + size_on(s, axis) for s in shapes) + pad for axis in 'xy'}
        return put('groups', Group(pad, rest[1:], low, high))
    if command == 'page':
        return put('pages', Page(*map(int, rest[:5]), rest[5] == 'rigid'))
    return put('compounds', tuple(words))


def variables(scene, axis):
    """The variables of an axis, in order. An edge has the name of its item with `.low` or `.high`."""
    found = [Variable(n, 1000 if s.held else 1, place_on(s, axis), s.moves) for n, s in scene.shapes.items()]
    found += [Variable(n, 1, g.at, g.moves) for n, g in scene.guides.items() if g.axis == axis]
    for n, g in scene.groups.items():
        found += [Variable(n + '.low', 1, g.low[axis], 0), Variable(n + '.high', 1, g.high[axis], 0)]
    for n, p in scene.pages.items():
        low, size = (p.x, p.w) if axis == 'x' else (p.y, p.h)
        found += [Variable(n + '.low', 100, low, 0), Variable(n + '.high', 100, low + size, 0)]
    return found


def separations(scene, axis):
    """What the constraints of the scene ask for on an axis, in order: right stands gap behind left."""
    seps = []

    def inside(name, pad, members):
        for m in members:
            seps.append(Sep(name + '.low', m, pad, False))
            seps.append(Sep(m, name + '.high', pad + size_on(scene.shapes[m], axis), False))
        seps.append(Sep(name + '.low', name + '.high', 0, False))

    for words in scene.compounds.values():
        command, rest = words[0], words[2:]
        if command == 'align':
            if scene.guides[rest[0]].axis == axis:
                for m in rest[2:]:
                    size = size_on(scene.shapes[m], axis)
                    seps.append(Sep(m, rest[0], {'low': 0, 'mid': size // 2, 'high': size}[rest[1]], True))
        elif rest[0] == axis and command == 'apart':
            seps.append(Sep(rest[1], rest[2], int(rest[3]), rest[4] == 'exact'))
        elif rest[0] == axis:
            seps += [Sep(m, n, int(rest[1]), command == 'spread') for m, n in zip(rest[2:], rest[3:])]
    for name, g in scene.groups.items():
        inside(name, g.pad, g.members)
    for name, p in scene.pages.items():
        inside(name, p.margin, scene.shapes)
        if p.rigid:
            seps.append(Sep(name + '.low', name + '.high', p.w if axis == 'x' else p.h, True))
    return seps


def feasible(scene, axis):
    """Whether some placement satisfies the separations: no cycle of arcs goes up by more than 0 (Bellman and Ford)."""
    at = {v.name: 0 for v in variables(scene, axis)}
    arcs = [(s.left, s.right, s.gap) for s in separations(scene, axis)]
    arcs += [(s.right, s.left, -s.gap) for s in separations(scene, axis) if s.exact]
    for _ in range(len(at) + 1):
        rises = False
        for left, right, gap in arcs:
            if at[left] + gap > at[right]:
                at[right] = at[left] + gap
                rises = True
        if not rises:
            return True
    return False


def shows_cycle(scene, axis, arcs):
    """Whether the arcs, as `#3+` or `#3-`, are a cycle that visits nothing twice and goes up by more than 0."""
    seps = separations(scene, axis)
    walk, total = [], 0
    for arc in arcs:
        if arc[0] != '#' or int(arc[1:-1]) >= len(seps):
            return False
        sep = seps[int(arc[1:-1])]
        if arc[-1] == '-' and not sep.exact:
            return False
        walk.append((sep.left, sep.right) if arc[-1] == '+' else (sep.right, sep.left))
        total += sep.gap if arc[-1] == '+' else -sep.gap
    starts = [start for start, _ in walk]
    return (total > 0 and len(set(starts)) == len(starts)
            and all(end == walk[(i + 1) % len(walk)][0] for i, (_, end) in enumerate(walk)))


# ---- verdicts

def ranged(words):
    """The first number of an edit outside its range."""
    command, rest = words[0], words[2:]
    place, size, sheet, pad = (-FAR, FAR), (1, 10_000), (1, FAR), (0, 10_000)
    ranges = {'box': [place, place, size, size], 'oval': [place, place, size, size],
              'diamond': [place, place, size, size], 'size': [size, size], 'move': [place, place], 'shift': [place],
              'guide': [None, place], 'spread': [None, place], 'rank': [None, place],
              'apart': [None, None, None, place], 'group': [pad], 'page': [place, place, sheet, sheet, pad]}
    for word, bounds in zip(rest, ranges.get(command, [])):
        if bounds and not bounds[0] <= int(word) <= bounds[1]:
            return int(word)
    return None


def asked(words):
    """Of an edit: the new name or None, the names that must stand with the sorts wanted, and the list without repeats."""
    command, name, rest = words[0], words[1], words[2:]
    if command in ('box', 'oval', 'diamond', 'guide', 'page'):
        return name, [], []
    if command in ('size', 'move', 'hold', 'free'):
        return None, [(name, ['shapes'])], []
    if command == 'shift':
        return None, [(name, ['guides'])], []
    if command == 'remove':
        return None, [(name, ['shapes', 'guides'])], []
    if command == 'unlink':
        return None, [(name, ['links'])], []
    if command == 'drop':
        return None, [(name, ['compounds', 'groups', 'pages'])], []
    if command == 'link':
        return name, [(n, ['shapes']) for n in rest], rest
    if command == 'group':
        return name, [(n, ['shapes']) for n in rest[1:]], rest[1:]
    if command == 'align':
        return name, [(rest[0], ['guides'])] + [(n, ['shapes']) for n in rest[2:]], rest[2:]
    names = rest[1:3] if command == 'apart' else rest[2:]
    return name, [(n, ['shapes', rest[0]]) for n in names], names


def is_sort(scene, name, sorts):
    """Whether the name's item is of one of the sorts; `x` and `y` are the guidelines of that axis."""
    sort, item = find(scene, name)
    return sort in sorts or (sort == 'guides' and item.axis in sorts)


def user(scene, name):
    """The first item that uses the name: links, then compounds, then groups."""
    for n, ends in scene.links.items():
        if name in ends:
            return n
    for n, words in scene.compounds.items():
        if name in [stands for stands, _ in asked(words)[1]]:
            return n
    for n, g in scene.groups.items():
        if name in g.members:
            return n
    return None


def verdict(scene, words):
    """The refusal of an edit as text, `infeasible x` or `infeasible y` without arcs, or None."""
    new, stand, members = asked(words)
    value = ranged(words)
    if value is not None:
        return f'range {value}'
    for name, _ in stand:
        if find(scene, name)[0] is None:
            return f'unknown {name}'
    if new and find(scene, new)[0]:
        return f'taken {new}'
    for name, sorts in stand:
        if not is_sort(scene, name, sorts):
            return f'kind {name}'
    for i, name in enumerate(members):
        if name in members[:i]:
            return f'twice {name}'
    if words[0] == 'remove' and user(scene, words[1]):
        return f'inuse {user(scene, words[1])}'
    if len(members) > 64:
        return 'limit members 64'
    if new:
        sort = SORT[words[0]]
        if len(getattr(scene, sort)) >= LIMITS[sort]:
            return f'limit {sort} {LIMITS[sort]}'
    after = edited(scene, words)
    if any(len(separations(after, axis)) > 2048 for axis in 'xy'):
        return 'limit seps 2048'
    for axis in 'xy':
        if not feasible(after, axis):
            return f'infeasible {axis}'
    return None


# ---- places and proposals

def clamp(value):
    return max(-FAR, min(FAR, value))


def toward_zero(a, b):
    return -(-a // b) if a < 0 else a // b


def carried(before, after, places):
    """The places after an edit or undo: a variable that is the same keeps its place."""
    kept = {}
    for axis in 'xy':
        was = {v.name: v for v in variables(before, axis)}
        kept[axis] = {}
        for v in variables(after, axis):
            same = v.name in was and (was[v.name].anchor, was[v.name].moves) == (v.anchor, v.moves)
            kept[axis][v.name] = places[axis][v.name] if same else v.anchor
    return kept


def hops(scene):
    """The counted pairs of shapes: the least number of links between two, up to 60."""
    near = {name: set() for name in scene.shapes}
    for a, b in scene.links.values():
        near[a].add(b)
        near[b].add(a)
    order = list(scene.shapes)
    number = {name: i for i, name in enumerate(order)}
    pairs = []
    for first in order:
        far, now, count = {first}, [first], 0
        while now and count < 60:
            count += 1
            now = sorted({n for m in now for n in near[m]} - far)
            far.update(now)
            pairs += [(number[first], number[n], count) for n in now]
    return order, pairs


def distance(mids, i, j):
    return max(1, isqrt((mids[j][0] - mids[i][0]) ** 2 + (mids[j][1] - mids[i][1]) ** 2))


def middles(scene, order, at):
    return [(at[i][0] + scene.shapes[n].w // 2, at[i][1] + scene.shapes[n].h // 2) for i, n in enumerate(order)]


def stress(scene, order, pairs, at):
    mids = middles(scene, order, at)
    return sum(3600 // (h * h) * (distance(mids, i, j) - 100 * h) ** 2 for i, j, h in pairs if i < j)


def pulls(scene, order, pairs, at):
    """The pull of each shape on X and Y."""
    mids = middles(scene, order, at)
    sums = [[0, 0] for _ in order]
    weights = [0] * len(order)
    for i, j, h in pairs:
        k, r = 3600 // (h * h), distance(mids, i, j)
        apart = [mids[j][0] - mids[i][0], mids[j][1] - mids[i][1]]
        if apart == [0, 0]:
            apart = [1 if i < j else -1, 0]
        for axis in (0, 1):
            sums[i][axis] += k * toward_zero(apart[axis] * (r - 100 * h), r)
        weights[i] += k
    return [(0, 0) if weights[i] == 0 or scene.shapes[n].held
            else tuple(toward_zero(total, weights[i]) for total in sums[i]) for i, n in enumerate(order)]


def proposal(scene, places):
    """The desired places of a frame, on each axis by name."""
    order, pairs = hops(scene)
    at = [tuple(clamp(places[axis][n]) for axis in 'xy') for n in order]
    old, pull = stress(scene, order, pairs, at), pulls(scene, order, pairs, at)
    for part in (2, 4, 8, 16, 32):
        moved = [tuple(clamp(p + toward_zero(q, part)) for p, q in zip(at[i], pull[i])) for i in range(len(order))]
        if stress(scene, order, pairs, moved) < old:
            at = moved
            break
    desired = {}
    for number, axis in enumerate('xy'):
        shapes = {n: at[i][number] for i, n in enumerate(order)}
        desired[axis] = dict(shapes)
        for v in variables(scene, axis)[len(shapes):]:
            item = v.name.partition('.')[0]
            if item in scene.guides:
                desired[axis][v.name] = clamp(places[axis][v.name])
            elif item in scene.pages:
                desired[axis][v.name] = v.anchor
            else:
                g = scene.groups[item]
                desired[axis][v.name] = (
                    min(shapes[m] for m in g.members) - g.pad if v.name.endswith('.low')
                    else max(shapes[m] + size_on(scene.shapes[m], axis) for m in g.members) + g.pad)
    return desired


# ---- frames

def fraction(text):
    """A fraction whose text is in lowest terms."""
    over, line, under = text.partition('/')
    n, d = int(over), int(under) if line else 1
    want(d > 0 and gcd(n, d) == 1 and (d > 1 or not line), 'not in lowest terms:', text)
    return Fraction(n, d)


def judge_axis(scene, axis, lines, desired):
    """Judges the lines of a frame on an axis, and answers the drawn places."""
    its, seps = variables(scene, axis), separations(scene, axis)
    at, force, last = {}, {}, -1
    for i, line in enumerate(lines):
        words = line.split(' ')
        if i < len(its):
            want(len(words) == 4 and words[1] == its[i].name, 'variable', its[i].name, 'expected in:', line)
            want(int(words[2]) == desired[words[1]], 'desired', desired[words[1]], 'expected in:', line)
            at[words[1]] = fraction(words[3])
        else:
            want(len(words) == 3 and words[1][0] == '#', 'multiplier expected in:', line)
            number, force_here = int(words[1][1:]), fraction(words[2])
            want(last < number < len(seps) and force_here != 0, 'no rising multiplier:', line)
            last, force[number] = number, force_here
    want(len(at) == len(its), 'variables are missing on', axis)
    balance = {v.name: 2 * v.weight * (at[v.name] - desired[v.name]) for v in its}
    for number, sep in enumerate(seps):
        slack = at[sep.right] - at[sep.left] - sep.gap
        want(slack == 0 if sep.exact else slack >= 0, axis, 'separation', number, 'is missed by', slack)
        if number in force:
            f = force[number]
            want(slack == 0, axis, 'multiplier of a slack separation', number)
            want(sep.exact or f > 0, axis, 'multiplier below 0', number)
            want(all(at[end].denominator % f.denominator == 0 for end in (sep.left, sep.right)), axis, 'denominator', number)
            balance[sep.right] -= f
            balance[sep.left] += f
    for name, rest in balance.items():
        want(rest == 0, axis, name, 'is out of balance by', rest)
        want(abs(at[name]) <= 2 ** 31, axis, name, 'is too far')
    return {name: place.numerator // place.denominator for name, place in at.items()}


# ---- histories

class History:
    """The entries, and at each front the scene, the places, what a look gives, and the edits that stand."""

    def __init__(self, frames):
        self.frames = frames
        self.entries = []
        self.scenes, self.standing = [EMPTY], [()]
        self.places = [{'x': {}, 'y': {}}]
        self.settled, self.end, self.made = [False], None, [0]

    def look(self, front):
        """What a look gives at a front; this many frames stood there."""
        if self.end is not None and self.end < front:
            return 'ending'
        if self.made[front] >= self.frames:
            return 'spent'
        return 'idle' if self.settled[front] else 'job'

    def add(self, who, line, text, below):
        """Judges an entry with the lines below it, and adds it."""
        place, scene, standing = len(self.entries), self.scenes[-1], self.standing[-1]
        places, settled, made = self.places[-1], False, self.made[-1]
        where = f'entry {place}:'
        if text == 'end':
            want((who, line, self.end) == (0, 0, None), where, 'end once, by 0')
            self.end = place
        elif text == 'frame':
            behind = place - self.end - 1 if self.end is not None else None
            want(made < self.frames if behind is None else behind < 64, where, 'too many frames')
            want((who == 0) == (behind is not None), where, 'a frame by', who)
            want(who in range(1, 9) or line == 0, where, 'a frame with a line by', who)
            want(behind in (None, 0) or not self.settled[-1], where, 'a frame behind the settled one')
            desired, drawn = proposal(scene, places), {}
            for axis in 'xy':
                drawn[axis] = judge_axis(scene, axis, [b for b in below if b[0] == axis], desired[axis])
            want([b[0] for b in below] == sorted(b[0] for b in below), where, 'x before y')
            settled, places, made = drawn == places, drawn, made + (behind is None)
        else:
            want(self.end is None and who in range(1, 9), where, text, 'by', who)
            if text == 'undo':
                want(standing, where, 'nothing stands')
                after, standing = standing[-1], standing[:-1]
            else:
                words = text.split(' ')
                refused = verdict(scene, words)
                want(refused is None, where, 'must be refused:', refused)
                after, standing = edited(scene, words), standing + (scene,)
            places, scene = carried(scene, after, places), after
        want(text == 'frame' or not below, where, 'lines below it')
        self.entries.append((who, line, text))
        self.scenes.append(scene)
        self.standing.append(standing)
        self.places.append(places)
        self.settled.append(settled)
        self.made.append(made)

    def finish(self, workers):
        """Judges that the history is finished, and who made its entries."""
        want(self.end is not None and self.end + 1 < len(self.entries), 'no end, or no frame behind it')
        want(self.settled[-1] or len(self.entries) - self.end - 1 == 64, 'not settled')
        callers = {0, *range(1, 9), *range(11, 11 + workers)}
        want(all(who in callers for who, _, _ in self.entries), 'a caller that is nobody')


# ---- replies

def answer(history, front, name):
    """What `where` answers at a front."""
    scene, places = history.scenes[front], history.places[front]
    sort, item = find(scene, name)
    if sort is None:
        return f'refused {front} unknown {name}'
    if sort in ('links', 'compounds'):
        return f'refused {front} kind {name}'
    if sort == 'shapes':
        return f'at {places["x"][name]} {places["y"][name]} {front}'
    if sort == 'guides':
        return f'guide {item.axis} {places[item.axis][name]} {front}'
    edges = [places[axis][name + edge] for edge in ('.low', '.high') for axis in 'xy']
    return 'area {} {} {} {} {}'.format(*edges, front)


def judge_refusal(history, front, text, cause):
    """Judges the refusal of an edit or undo."""
    scene = history.scenes[front]
    if text == 'undo':
        return want(cause == ['nothing'] and not history.standing[front], text, 'refused', cause)
    words = text.split(' ')
    due = verdict(scene, words)
    if cause[0] == 'infeasible':
        want(due == ' '.join(cause[:2]), text, 'is refused', cause, 'where the cause is', due)
        want(shows_cycle(edited(scene, words), cause[1], cause[2:]), text, 'no cycle:', cause)
    else:
        want(due == ' '.join(cause), text, 'is refused', cause, 'where the cause is', due)


def judge_reply(history, who, line, text, reply, seen):
    """Judges a reply to a line of one that had seen so many entries. Answers from where and up to where it speaks."""
    words = reply.split(' ')
    kind = words[0]
    if kind in ('accepted', 'published'):
        place = int(words[1])
        want(len(words) == 2 and (kind == 'published') == (text == 'layout'), reply, 'to', text)
        entry = (who, line, 'frame' if kind == 'published' else text)
        want(place < len(history.entries) and history.entries[place] == entry, reply, 'but that entry is another')
        return place, place + 1
    front = int(words[1] if kind in ('refused', 'idle', 'spent', 'stale') else words[-1])
    want(0 <= front <= len(history.entries), reply, 'beyond the history')
    if text.startswith('where '):
        due = answer(history, front, text.split(' ')[1])
        want(reply == due, text, 'is answered', reply, 'where it is', due)
    elif text == 'layout':
        want(len(words) == 2 and kind in ('idle', 'spent', 'stale'), reply, 'to a layout')
        if kind == 'stale':
            want(any(history.look(f) == 'job' for f in range(seen, front)), reply, 'with no job before it')
        else:
            want(history.look(front) == kind, reply, 'where a look is', history.look(front))
    else:
        want(kind == 'refused', reply, 'to', text)
        judge_refusal(history, front, text, words[2:])
    return front, front


def judge_replies(history, script, lines, in_order):
    """Judges the replies, session by session. Alone the lines are answered in order: the front is the entries so far."""
    due = [(who, n, text) for s in range(1, 9) for who, n, text in script if who == s]
    want(len(due) == len(lines), len(due), 'replies expected, not', len(lines))
    seen, own, fronts = {}, {}, {}
    for (who, n, text), said in zip(due, lines):
        front = f'{who} {n} {text} = '
        want(said.startswith(front), 'reply to', front, 'expected, not', said)
        start, after = judge_reply(history, who, n, text, said[len(front):], seen.get(who, 0))
        want(start >= seen.get(who, 0), said, 'answers at less than was seen')
        want(after <= history.end, said, 'answers behind the end')
        seen[who], fronts[n] = after, (start, after)
        if after > start:
            own.setdefault(who, []).append(start)
    for who in range(1, 9):
        made = [i for i, entry in enumerate(history.entries) if entry[0] == who]
        want(made == own.get(who, []), 'session', who, 'made', made, 'but is told', own.get(who, []))
    now = 0
    for _, n, _ in script if in_order else []:
        want(fronts[n][0] == now, 'line', n, 'is answered at', fronts[n][0], 'and not at', now)
        now = fronts[n][1]


def read_script(text):
    """The session, number and command of each line."""
    lines = text.split('\n')
    want(lines[0] == 'dunnart 1' and lines[-2:] == ['end', ''], 'no script')
    return [(int(line[0]), i + 2, line[2:]) for i, line in enumerate(lines[1:-2])]


def read_history(lines, history):
    """Judges the lines of the history."""
    at = 0
    while at < len(lines):
        place, who, line, text = lines[at].split(' ', 3)
        want(place == str(len(history.entries)), 'entry', len(history.entries), 'expected in:', lines[at])
        below = at + 1
        while below < len(lines) and lines[below][0] in 'xy':
            below += 1
        history.add(int(who), int(line), text, lines[at + 1:below])
        at = below


def judge(script, listing, frames=64, workers=0):
    """Judges a listing, and answers its history. The first thing that isn't legal is raised as `Illegal`."""
    its, lines = read_script(script), listing.split('\n')
    want(lines[0] == 'listing 1' and lines[-2:] == ['done', ''] and 'replies' in lines, 'no whole listing')
    middle = lines.index('replies')
    history = History(frames)
    try:
        read_history(lines[1:middle], history)
        history.finish(workers)
        judge_replies(history, its, lines[middle + 1:-2], workers == 0)
    except (ValueError, IndexError, KeyError) as why:
        raise Illegal(f'what cannot be read behind entry {len(history.entries) - 1}: {why!r}') from why
    return history


if __name__ == '__main__':
    if len(sys.argv) not in (3, 4, 5):
        sys.exit(__doc__)
    with open(sys.argv[1]) as script_file, open(sys.argv[2]) as listing_file:
        try:
            its_history = judge(script_file.read(), listing_file.read(), *map(int, sys.argv[3:]))
        except Illegal as why:
            sys.exit(f'judge.py: {sys.argv[2]}: {why}')
    print(f'judge.py: {len(its_history.entries)} entries are legal')
