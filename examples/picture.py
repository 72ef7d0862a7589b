#!/usr/bin/env python3
"""Draws a run from what `stompd script` wrote of it, or from a trace: in letters, or with --svg as a picture.

    stompd script < examples/scripts/crossing.script | python3 examples/picture.py
    stompd trace < examples/scripts/crossing.script | python3 examples/picture.py
    stompd script < examples/scripts/lag.script |
        python3 examples/picture.py --svg --script examples/scripts/lag.script > lag.svg

Each column is a committed transaction, by rising stamp; below its stamp are its sender and its number. Each line is a
topic, with `o` where its log has the transaction, and `?` where it is yet to be released there. Below a topic are its
subscriptions, with `*` for an item that was delivered and `+` for one that its queue holds or held. A trace doesn't say what
was delivered. `--svg` also draws where each subscription begins and ends, and the transactions that got no stamp.

`--script FILE` is the script of this output. With it topics have their names, and it is said which transactions were
withdrawn, at which topics these had a ticket or were refused, and, of each subscription that ended, whether it lagged. Without
it that is said only of one that ended though nothing closed it.
"""
import argparse
import sys
from bisect import bisect_right
from collections import Counter
from dataclasses import dataclass, field
from xml.sax.saxutils import escape, quoteattr

ROWS = {'log', 'span', 'queue'}
SETTINGS = {'topic', 'capacity'}


def stamp_of(text):
    """The stamp `N.T` as a pair, by which stamps are ordered."""
    n, topic = text.split('.')
    return int(n), int(topic)


@dataclass
class Sub:
    """A subscription: its topic, the stamps after which it begins and with which it ends, and how it ended."""
    topic: int
    begin: tuple
    end: tuple = None
    fate: str = 'open'


@dataclass
class Unstamped:
    """A transaction without a stamp: what became of it, and at each topic that it was proposed at, what came of that."""
    fate: str = 'no stamp'
    topics: dict = field(default_factory=dict)


@dataclass
class Run:
    """What is drawn."""
    names: dict = field(default_factory=dict)
    stamps: dict = field(default_factory=dict)
    topics: dict = field(default_factory=dict)
    logs: dict = field(default_factory=dict)
    subs: dict = field(default_factory=dict)
    queued: set = field(default_factory=set)
    handed: set = field(default_factory=set)
    unstamped: dict = field(default_factory=dict)

    def order(self):
        """The transactions with a stamp, in the order of these."""
        return sorted(self.stamps, key=self.stamps.get)

    def topic_numbers(self):
        """All topics, from 0."""
        named = [t for topics in self.topics.values() for t in topics]
        tried = [t for one in self.unstamped.values() for t in one.topics]
        return range(max(named + tried + [s.topic for s in self.subs.values()] + list(self.names) + [-1]) + 1)


def read(lines):
    """The run that these lines are of."""
    run, closed = Run(), set()
    has_outcomes = not all(line.split(' ')[0] in ROWS for line in lines)
    for line in lines:
        word, *rest = line.split(' ')
        if word == 'flight':
            run.unstamped[tuple(rest)] = Unstamped()
        elif word == 'unsub':
            closed.add(int(rest[0]))
        elif word == 'commit':
            add_transaction(run, *rest)
        elif word == 'log':
            add_transaction(run, *rest[1:])
            run.logs.setdefault(int(rest[0]), []).append((rest[1], rest[2]))
        elif word == 'span':
            run.subs[int(rest[0])] = sub_of(*rest[1:], has_outcomes and int(rest[0]) not in closed)
        elif word == 'queue':
            run.queued.add((int(rest[0]), rest[1], rest[2]))
        elif word == 'handed' and len(rest) == 4:
            run.handed.add((int(rest[0]), rest[1], rest[2]))
    return run


def add_transaction(run, sender, seq, stamp, topics):
    """A transaction has this stamp."""
    run.stamps[sender, seq] = stamp_of(stamp)
    run.topics[sender, seq] = [int(t) for t in topics.split(',')]
    run.unstamped.pop((sender, seq), None)


def sub_of(topic, begin, end, unclosed):
    """A subscription. One that ended though nothing closed it lagged; a trace doesn't say what closed it."""
    if end == '-':
        return Sub(int(topic), stamp_of(begin))
    return Sub(int(topic), stamp_of(begin), stamp_of(end), 'lagged' if unclosed else 'ended')


def add_script(run, script, lines):
    """Adds what the script says: the topics' names, what became of transactions without a stamp, and who lagged."""
    words = [line.split(' ') for line in script if line and not line.startswith('#')]
    run.names = dict(enumerate(w[1] for w in words if w[0] == 'topic'))
    events = [w for w in words if w[0] not in SETTINGS]
    if len(events) > len(lines):
        sys.exit("picture.py: the output has fewer lines than the script has events: it isn't this script's")
    flights, released = {}, Counter()
    for event, line in zip(events, lines):
        what, *rest = line.split(' ')
        if what == 'flight':
            flights[event[1]] = run.unstamped.get(tuple(rest))
        elif event[0] in ('propose', 'withdraw'):
            add_fate(flights.get(event[1]), event, what)
        elif what in ('turned', 'released'):
            released[int(event[1])] += int(rest[0]) if what == 'turned' else 1
        elif what == 'unsub':
            add_end(run, released, run.subs[int(rest[0])])


def add_fate(flight, event, what):
    """What a proposal or a withdrawal says of a transaction that got no stamp."""
    if flight is None:
        return
    if event[0] == 'withdraw' and what == 'withdrawn':
        flight.fate = 'withdrawn'
    elif what in ('ticket', 'failed'):
        flight.topics[int(event[2])] = what


def add_end(run, released, sub):
    """A subscription is closed: it lagged where its topic had released a row after its end by then."""
    rows = run.logs.get(sub.topic, [])[:released[sub.topic]]
    sub.fate = 'lagged' if any(run.stamps[row] > sub.end for row in rows) else 'ended'


def draw_letters(run):
    """The picture's lines, in letters."""
    order = run.order()
    heads = ['%d.%d' % run.stamps[id] for id in order]
    names = [' '.join(id) for id in order]
    width = max([len(text) for text in heads + names] + [0]) + 3

    titles = max([14] + [len('topic %s' % name) + 2 for name in run.names.values()])

    def line(title, marks, fill):
        return (title.ljust(titles) + ''.join(mark.ljust(width, fill) for mark in marks)).rstrip()

    yield line('stamp', heads, ' ')
    yield line('transaction', names, ' ')
    for t in run.topic_numbers():
        logged = run.logs.get(t, [])
        marks = [('o' if id in logged else '?') if t in run.topics[id] else '-' for id in order]
        yield line('topic %s' % run.names.get(t, t), marks, '-')
        crossing = ['|' if min(run.topics[id]) <= t < max(run.topics[id]) else ' ' for id in order]
        for s in sorted(s for s in run.subs if run.subs[s].topic == t):
            marks = ['*' if (s, *id) in run.handed else '+' if (s, *id) in run.queued else c for id, c in zip(order, crossing)]
            yield line('  sub %d' % s, marks, ' ')
        if '|' in crossing:
            yield line('', crossing, ' ')


LEFT, TOP, TOPIC, SUB = 130, 44, 46, 28
STYLE = '''
text { font: 13px sans-serif; fill: #1b1f24 }
.head { font-weight: bold; text-anchor: middle }
.small { font-size: 11px; fill: #57606a }
.middle { text-anchor: middle }
.topic { stroke: #57606a; stroke-width: 2 }
.transaction { stroke: #0969da; stroke-width: 2 }
.log { fill: #0969da; stroke: #0969da; stroke-width: 2 }
.waits { fill: #ffffff; stroke: #0969da; stroke-width: 2 }
.span { stroke: #1a7f37; stroke-width: 2 }
.end { stroke: #1a7f37; stroke-width: 3 }
.delivered { fill: #1a7f37; stroke: #1a7f37; stroke-width: 2 }
.accepted { fill: #ffffff; stroke: #1a7f37; stroke-width: 2 }
.lag { stroke: #cf222e; stroke-width: 3 }
.red { fill: #cf222e }
.withdrawn { stroke: #cf222e; stroke-width: 2; stroke-dasharray: 4 3 }
.ticket { fill: #ffffff; stroke: #cf222e; stroke-width: 2; stroke-dasharray: 3 2 }
.cross { stroke: #cf222e; stroke-width: 3 }
'''


def shape(name, _text=None, **attributes):
    """An element; `class_` is its class, `data_x` its `data-x`."""
    words = ''.join(' %s=%s' % (key.rstrip('_').replace('_', '-'), quoteattr(str(value))) for key, value in attributes.items())
    return '<%s%s/>' % (name, words) if _text is None else '<%s%s>%s</%s>' % (name, words, escape(_text), name)


def text(x, y, words, class_=''):
    """A text at a place."""
    return shape('text', words, x=x, y=y, class_=class_)


def bar(class_, x1, y1, x2, y2, **data):
    """A line."""
    return shape('line', class_=class_, x1=x1, y1=y1, x2=x2, y2=y2, **data)


def diamond(class_, x, y, **data):
    """A diamond round a place."""
    return shape('path', class_=class_, d='M%d %d l7 7 l-7 7 l-7 -7 z' % (x, y - 7), **data)


class Picture:
    """The places of a run's parts, and its shapes."""

    def __init__(self, run):
        self.run, self.order = run, run.order()
        self.stamps = [run.stamps[id] for id in self.order]
        all_ids = self.order + list(run.unstamped)
        longest = max([len('%d.%d' % stamp) for stamp in self.stamps] + [len('sender %s' % ' '.join(id)) for id in all_ids] + [9])
        self.width = 16 + 9 * longest
        self.columns = {id: LEFT + self.width * i + self.width // 2 for i, id in enumerate(all_ids)}
        self.right = LEFT + self.width * max(len(self.columns), 1)
        self.border = LEFT + self.width * len(self.order)
        self.lines, self.sub_lines, y = {}, {}, TOP
        for t in run.topic_numbers():
            y += TOPIC
            self.lines[t] = y
            for s in sorted(s for s in run.subs if run.subs[s].topic == t):
                y += SUB
                self.sub_lines[s] = y
        self.bottom = y

    def edge(self, stamp):
        """Between the columns, after the last stamp that is this one or below."""
        return LEFT + self.width * bisect_right(self.stamps, stamp)

    def shapes(self):
        """All shapes, the lower ones first."""
        yield shape('rect', x=0, y=0, width='100%', height='100%', fill='#ffffff')
        for t, y in self.lines.items():
            yield text(12, y + 5, 'topic %s' % self.run.names.get(t, t))
            yield bar('topic', LEFT, y, self.right, y, data_topic=t)
        for s in self.sub_lines:
            yield from self.sub(s)
        for id in self.order:
            yield from self.transaction(id)
        for id, one in self.run.unstamped.items():
            yield from self.without_stamp(id, one)
        for s, y in self.sub_lines.items():
            yield from self.items(s, y)
        yield from self.legend()

    def head(self, id, title, class_='head'):
        """What stands above a column."""
        x = self.columns[id]
        yield text(x, 34, title, class_)
        yield text(x, 54, 'sender %s, no. %s' % id, 'small middle')

    def transaction(self, id):
        """A transaction: a line from its first topic to its last, with a dot at each."""
        x, topics = self.columns[id], self.run.topics[id]
        name = ' '.join(id)
        yield from self.head(id, '%d.%d' % self.run.stamps[id])
        yield bar('transaction', x, self.lines[min(topics)], x, self.lines[max(topics)], data_transaction=name)
        for t in topics:
            kind = 'log' if id in self.run.logs.get(t, []) else 'waits'
            yield shape('circle', class_=kind, cx=x, cy=self.lines[t], r=7, data_transaction=name, data_topic=t)

    def without_stamp(self, id, one):
        """A transaction without a stamp: a ring where it has or had a ticket, a cross where a topic refused it."""
        x, name = self.columns[id], ' '.join(id)
        yield from self.head(id, one.fate, 'head red')
        if one.topics:
            yield bar('withdrawn', x, self.lines[min(one.topics)], x, self.lines[max(one.topics)], data_transaction=name)
        for t, what in one.topics.items():
            y = self.lines[t]
            if what == 'ticket':
                yield shape('circle', class_='ticket', cx=x, cy=y, r=7, data_transaction=name, data_topic=t)
            else:
                yield shape('path', class_='cross', d='M%d %d l14 14 m0 -14 l-14 14' % (x - 7, y - 7),
                            data_transaction=name, data_topic=t)

    def sub(self, s):
        """A subscription's span, from where it begins to where it ends, if it has ended."""
        sub, y = self.run.subs[s], self.sub_lines[s]
        begin = self.edge(sub.begin) + 6
        end = self.border if sub.end is None else self.edge(sub.end) - 6
        yield text(30, y + 4, 'subscription %d' % s, 'small')
        yield bar('span', begin, y, max(begin, end), y, data_subscription=s)
        yield bar('end', begin, y - 6, begin, y + 6)
        if sub.end is not None:
            kind = 'lag' if sub.fate == 'lagged' else 'end'
            yield bar(kind, max(begin, end), y - 9, max(begin, end), y + 9, data_subscription=s)
            yield text(max(begin, end) + 8, y + 4, sub.fate, 'small red' if kind == 'lag' else 'small')

    def items(self, s, y):
        """What a subscription got."""
        for id in self.order:
            if (s, *id) in self.run.queued:
                kind = 'delivered' if (s, *id) in self.run.handed else 'accepted'
                yield diamond(kind, self.columns[id], y, data_subscription=s, data_transaction=' '.join(id))

    def legend(self):
        """What the shapes mean, those alone that are there."""
        run, y = self.run, self.bottom + 36
        named = [(id in run.logs.get(t, [])) for id in self.order for t in run.topics[id]]
        got = [item in run.handed for item in run.queued]
        tried = [what for one in run.unstamped.values() for what in one.topics.values()]
        rows = [
            (any(named), shape('circle', class_='log', cx=LEFT, cy=y - 4, r=6), "in the topic's log"),
            (not all(named), shape('circle', class_='waits', cx=LEFT, cy=y - 4, r=6), 'not released there yet'),
            (any(got), diamond('delivered', LEFT, y - 4), 'delivered to the subscription'),
            (not all(got), diamond('accepted', LEFT, y - 4), 'accepted by its queue'),
            ('ticket' in tried, shape('circle', class_='ticket', cx=LEFT, cy=y - 4, r=6), 'had a ticket, but no stamp'),
            ('failed' in tried, shape('path', class_='cross', d='M%d %d l12 12 m0 -12 l-12 12' % (LEFT - 6, y - 10)), 'refused'),
        ]
        for i, (_, mark, words) in enumerate(row for row in rows if row[0]):
            yield shape('g', transform='translate(0 %d)' % (20 * i))[:-2] + '>' + mark + text(LEFT + 16, y, words, 'small') + '</g>'
        self.height = y + 20 * sum(bool(row[0]) for row in rows)

    def svg(self):
        """The whole picture."""
        shapes = '\n'.join(self.shapes())
        return '\n'.join([
            '<svg xmlns="http://www.w3.org/2000/svg" width="%d" height="%d" role="img">' % (self.right + 90, self.height),
            '<title>Transactions by rising stamp, at their topics, and what each subscription got</title>',
            '<style>%s</style>' % STYLE, shapes, text(12, 34, 'stamp', 'small'), '</svg>', ''])


def main():
    parser = argparse.ArgumentParser(description='Draws a run from what `stompd script` wrote of it, or from a trace.')
    parser.add_argument('--svg', action='store_true', help='a picture as SVG, in place of letters')
    parser.add_argument('--script', metavar='FILE', help='the script whose output this is')
    options = parser.parse_args()
    lines = sys.stdin.read().splitlines()
    words = {line.split(' ')[0] for line in lines if line}
    if 'bad' in words:
        sys.exit('picture.py: this script or trace was refused, so there is no run to draw')
    run = read(lines)
    if options.script and not words <= ROWS:
        with open(options.script, encoding='utf-8', errors='surrogateescape') as script:
            add_script(run, script.read().split('\n'), lines)
    if options.svg:
        sys.stdout.write(Picture(run).svg())
    else:
        for line in draw_letters(run):
            print(line)


if __name__ == '__main__':
    main()
