#!/usr/bin/env python3
"""The rules of the walk, written plainly, as a witness beside the Rust walks and ours.

Reads scenarios from standard input and prints what each call gives, with the count and what waits in the queue: what
the oracle prints with the argument `state`."""
import bisect
import sys

COMPLETE, ALTERNATE, COMMON, SEEN, POPPED, COMMON_REF, ADVERTISED = 1, 2, 4, 8, 16, 32, 64


class Denied(Exception):
    """A call is refused; `stops` says whether the walk ends with it."""

    def __init__(self, number, stops=True):
        super().__init__(number)
        self.number, self.stops = number, stops


class Queue:
    """The latest date is drawn first, and of one date what entered first."""

    def __init__(self):
        self.entries, self.entered = [], 0

    def enter(self, date, value):
        self.entered += 1
        bisect.insort(self.entries, (-date, self.entered, value))

    def draw(self):
        return self.entries.pop(0)[2] if self.entries else None


class Row:
    def __init__(self, ident, date, parents):
        self.id, self.date, self.parents = ident, date, parents
        self.flags = self.original = self.ttl = 0

    def has(self, bits):
        return self.flags & bits != 0


class Walk:
    """The state that all negotiators share. `source` maps an id to 'fail' or to (date, parents); other ids are absent."""

    def __init__(self, source, most_rows, links):
        self.source, self.most_rows, self.free = source, most_rows, links
        self.rows, self.by_id, self.queue, self.count, self.stopped = [], {}, Queue(), 0, False

    def row(self, ident):
        """The row that the id has already, or none."""
        return self.by_id.get(ident)

    def seen(self, ident):
        row = self.row(ident)
        return row is not None and row.has(SEEN)

    def lookup(self, ident):
        """The id's row, which is made of the source's commit where there is none yet; none for an absent id."""
        if ident in self.by_id:
            return self.by_id[ident]
        held = self.source.get(ident)
        if held is None:
            return None
        if held == 'fail':
            raise Denied(3)
        date, parents = held
        if len(self.rows) == self.most_rows:
            raise Denied(4)
        if len(parents) > self.free:
            raise Denied(5)
        self.free -= len(parents)
        row = Row(ident, date, parents)
        self.rows.append(row)
        self.by_id[ident] = row
        return row

    def call(self, kind, ident=None):
        """Makes one call, and gives its answer as text."""
        if self.stopped:
            return 'no 1'
        try:
            if kind in ('complete', 'alternate'):
                row = self.lookup(ident)
                if row:
                    row.flags |= COMPLETE if kind == 'complete' else ALTERNATE
                return 'ok'
            return getattr(self, kind)(ident)
        except Denied as denied:
            self.stopped = denied.stops
            return f'no {denied.number}'


class Noop(Walk):
    def common(self, _):
        return 'ok'

    tip = common

    def next(self, _):
        return 'none'

    def ack(self, _):
        return 'false'


class Consecutive(Walk):
    def push(self, ident, mask):
        row = self.lookup(ident)
        if row is None:
            return
        fresh = not row.has(mask)
        row.flags |= mask
        if fresh:
            self.queue.enter(row.date, row)
            if not row.has(COMMON):
                self.count += 1

    def learn_common(self, row):
        """The row becomes common; what still waits to be offered is one fewer if it was waiting."""
        row.flags |= COMMON
        if row.has(SEEN) and not row.has(POPPED):
            self.count -= 1

    def mark(self, ident, itself, near):
        row = self.lookup(ident)
        if row is None or row.has(COMMON):
            return
        if itself:
            self.learn_common(row)
        todo = Queue()
        todo.enter(row.date, (row, 0))
        while (drawn := todo.draw()) is not None:
            row, generation = drawn
            if not row.has(SEEN):
                self.push(row.id, SEEN)
            elif not near or generation < 2:
                for parent in map(self.lookup, row.parents):
                    if parent is not None and not parent.has(COMMON):
                        self.learn_common(parent)
                        todo.enter(parent.date, (parent, generation + 1))

    def common(self, ident):
        if not self.seen(ident):
            self.push(ident, COMMON_REF | SEEN)
            self.mark(ident, itself=False, near=True)
        return 'ok'

    def tip(self, ident):
        self.push(ident, SEEN)
        return 'ok'

    def ack(self, ident):
        row = self.row(ident)
        known = row is not None and row.has(COMMON)
        self.mark(ident, itself=True, near=True)
        return 'true' if known else 'false'

    def next(self, _):
        while True:
            row = self.queue.draw()
            # Tested after the draw: the drawn entry is lost.
            if row is None or self.count == 0:
                return 'none'
            row.flags |= POPPED
            common = row.has(COMMON)
            if not common:
                self.count -= 1
            passes = common or row.has(COMMON_REF)
            for parent in row.parents:
                if not self.seen(parent):
                    self.push(parent, COMMON | SEEN if passes else SEEN)
                if passes:
                    self.mark(parent, itself=False, near=False)
            if not common:
                return f'have {row.id}'


class Skipping(Walk):
    def push(self, ident, mask):
        row = self.lookup(ident)
        if row is not None:
            row.flags |= mask | SEEN
            self.queue.enter(row.date, row)
            self.count += 1
        return row

    def mark(self, ident):
        row = self.lookup(ident)
        if row is None or row.has(COMMON):
            return
        row.flags |= COMMON
        todo = Queue()
        todo.enter(row.date, row)
        while (row := todo.draw()) is not None:
            if not row.has(POPPED):
                self.count -= 1
            # Only rows are marked: a parent that no call has brought in is left alone.
            for parent in filter(None, map(self.row, row.parents)):
                onward = parent.has(SEEN) and not parent.has(COMMON)
                parent.flags |= COMMON
                if onward:
                    todo.enter(parent.date, parent)

    def push_parent(self, flags, original, ttl, ident):
        """Passes a drawn row's state on to a parent; whether the parent waits in the queue."""
        if self.seen(ident):
            if self.row(ident).has(POPPED):
                return False
        else:
            self.push(ident, 0)
        if flags & (COMMON | ADVERTISED):
            self.mark(ident)
            return True
        parent = self.row(ident)
        if parent is None:
            raise Denied(6)
        new = (original, ttl - 1) if ttl > 0 else (min(original * 3 // 2 + 1, 65535),) * 2
        if parent.original < new[0]:
            parent.original, parent.ttl = new
        return True

    def common(self, ident):
        if not self.seen(ident):
            self.push(ident, ADVERTISED)
        return 'ok'

    def tip(self, ident):
        if not self.seen(ident):
            self.push(ident, 0)
        return 'ok'

    def ack(self, ident):
        if not self.seen(ident):
            raise Denied(2, stops=False)
        known = self.row(ident).has(COMMON)
        self.mark(ident)
        return 'true' if known else 'false'

    def next(self, _):
        while True:
            row = self.queue.draw()
            if row is None or self.count == 0:
                return 'none'
            row.flags |= POPPED
            if not row.has(COMMON):
                self.count -= 1
            # As they are at the draw: what passing on does to the row itself, in a cycle, is not passed on.
            flags, original, ttl = row.flags, row.original, row.ttl
            pushed = [self.push_parent(flags, original, ttl, parent) for parent in row.parents]
            if not flags & COMMON and (ttl == 0 or not any(pushed)):
                return f'have {row.id}'


NEGOTIATORS = {'0': Noop, '1': Consecutive, '2': Skipping}
NAMES = {'noop': 0, 'consecutive': 1, 'skipping': 2, 'default': 1}


def window(stateless, size):
    """How many haves the next round has, from the size of the round before."""
    if size is None:
        return '16'
    if size > 1_000_000_000:
        return 'no 7'
    if stateless:
        return str(size * 2 if size < 16384 else size * 11 // 10)
    return str(size * 2 if size < 32 else size + 32)


def play(number, most_rows, links, source, calls):
    """The line of each call."""
    walk = NEGOTIATORS[number](source, most_rows, links)
    shown = []
    for call in calls:
        line = '= ' + walk.call(*call)
        for place, row in enumerate(walk.rows):
            now = (row.flags, row.original, row.ttl)
            if place == len(shown):
                shown.append(None)
            if shown[place] != now:
                shown[place] = now
                line += ' %d:%d:%d:%d:%d' % (place, row.id, *now)
        waiting = ''.join(f' {row.id}' for _, _, row in walk.queue.entries)
        yield f'{line} ; {walk.count} ;{waiting}'


def numbers(words, high=65535):
    """The words as numbers within these bounds."""
    values = [int(word) for word in words]
    if any(not 0 <= value <= high for value in values):
        raise ValueError('a number out of range')
    return values


class Reader:
    """Reads scenarios line by line, and prints what each gives at its end."""

    def __init__(self):
        self.scenario = None

    def finish(self):
        if self.scenario:
            for line in play(*self.scenario):
                print(line)
        self.scenario = None

    def hold(self, ident, held):
        source, calls = self.scenario[3:]
        if ident in source:
            raise ValueError('an id stands twice in the source')
        if calls:
            raise ValueError('a commit after a call')
        source[ident] = held

    def take(self, head, words):
        if head in ('walk', 'window', 'name'):
            self.finish()
        if head == 'walk':
            number, rows, links = words
            if number not in NEGOTIATORS:
                raise ValueError('no such negotiator')
            self.scenario = number, *numbers([rows, links]), {}, []
        elif head == 'window':
            transport, size = words
            if transport not in ('stateful', 'stateless'):
                raise ValueError('no such transport')
            print('=', window(transport == 'stateless', None if size == 'none' else numbers([size], 2**64 - 1)[0]))
        elif head == 'name':
            name, = words
            print('=', NAMES.get(name, 'no 8'))
        elif self.scenario is None:
            raise ValueError('no walk has begun')
        elif head == 'commit':
            if len(words) < 2 or not -2**63 <= int(words[1]) < 2**63:
                raise ValueError('no date')
            self.hold(*numbers(words[:1]), (int(words[1]), numbers(words[2:])))
        elif head == 'fail':
            ident, = numbers(words)
            self.hold(ident, 'fail')
        elif len(words) != (head != 'next') or head not in ('tip', 'common', 'ack', 'complete', 'alternate', 'next'):
            raise ValueError('no such call')
        else:
            self.scenario[4].append((head, *numbers(words)))


def main():
    reader = Reader()
    for number, line in enumerate(sys.stdin, 1):
        head, *words = line.split() or '#'
        if head[0] in '#=':
            continue
        try:
            reader.take(head, words)
        except ValueError as error:
            raise SystemExit(f'line {number}: {error}') from None
    reader.finish()


if __name__ == '__main__':
    main()
