#!/usr/bin/env python3
"""Looks at the shapes of pictures that picture.py draws:

    python3 examples/test_picture.py
"""
import os
import subprocess
import sys
import unittest
import xml.etree.ElementTree as ElementTree

HERE = os.path.dirname(os.path.abspath(__file__))
SCRIPTS = os.path.join(HERE, 'scripts')
PICTURES = os.path.join(HERE, '..', 'docs', 'pictures')
SVG = '{http://www.w3.org/2000/svg}'


def picture(file, *options):
    """What picture.py writes of this file."""
    with open(file, 'rb') as given:
        command = [sys.executable, os.path.join(HERE, 'picture.py'), *options]
        return subprocess.run(command, stdin=given, capture_output=True, check=True).stdout.decode()


class Shapes:
    """The shapes of the picture of a script's output, or of a trace."""

    def __init__(self, file, script=None):
        self.text = picture(file, '--svg', *(['--script', script] if script else []))
        self.root = ElementTree.fromstring(self.text)

    @classmethod
    def of_script(cls, name, with_script=True):
        base = os.path.join(SCRIPTS, name)
        return cls(base + '.out', base + '.script' if with_script else None)

    def of_class(self, class_, **data):
        """The shapes of a class with these data, but those of the legend."""
        wanted = {'data-' + key: str(value) for key, value in data.items()}
        return [shape for shape in self.root if shape.get('class') == class_
                and all(shape.get(key) == value for key, value in wanted.items())]

    def words(self):
        """All texts with their places."""
        return {text.text: (int(text.get('x')), int(text.get('y'))) for text in self.root.iter(SVG + 'text')}

    def line_of(self, topic):
        """The height of a topic's line."""
        (line,) = self.of_class('topic', topic=topic)
        assert line.get('y1') == line.get('y2')
        return int(line.get('y1'))

    def dots(self, class_, transaction):
        """Where a transaction has dots of this class: topics, with places."""
        return {int(dot.get('data-topic')): (int(dot.get('cx')), int(dot.get('cy')))
                for dot in self.of_class(class_, transaction=transaction)}

    def items(self, class_, subscription):
        """The places of a subscription's items of this class, by their transactions."""
        places = {}
        for shape in self.of_class(class_, subscription=subscription):
            x, y = shape.get('d')[1:].split(' l', 1)[0].split(' ')
            places[shape.get('data-transaction')] = (int(x), int(y) + 7)
        return places


class Crossing(unittest.TestCase):
    """Transaction 1 goes to A and B, transaction 2 to B and C; subscription 0 is of B."""

    def setUp(self):
        self.shapes = Shapes.of_script('crossing')

    def test_topics_are_lines_in_their_order(self):
        words = self.shapes.words()
        heights = [self.shapes.line_of(t) for t in range(3)]
        self.assertEqual(heights, sorted(set(heights)))
        for name, height in zip(['topic A', 'topic B', 'topic C'], heights):
            self.assertLess(abs(words[name][1] - height), 10)

    def test_transactions_stand_at_their_stamps_and_topics(self):
        first, second = self.shapes.dots('log', '0 1'), self.shapes.dots('log', '0 2')
        self.assertEqual((set(first), set(second)), ({0, 1}, {1, 2}))
        words = self.shapes.words()
        for dots, stamp in ((first, '10.0'), (second, '11.2')):
            self.assertEqual({x for x, _ in dots.values()}, {words[stamp][0]})
            for topic, (_, y) in dots.items():
                self.assertEqual(y, self.shapes.line_of(topic))
        self.assertLess(words['10.0'][0], words['11.2'][0])

    def test_a_transaction_joins_its_topics(self):
        for name, (least, greatest) in {'0 1': (0, 1), '0 2': (1, 2)}.items():
            (bar,) = self.shapes.of_class('transaction', transaction=name)
            self.assertEqual((int(bar.get('y1')), int(bar.get('y2'))), (self.shapes.line_of(least), self.shapes.line_of(greatest)))
            self.assertEqual(bar.get('x1'), bar.get('x2'))

    def test_the_subscription_got_both(self):
        got, words = self.shapes.items('delivered', 0), self.shapes.words()
        self.assertEqual({name: x for name, (x, _) in got.items()}, {'0 1': words['10.0'][0], '0 2': words['11.2'][0]})
        (height,) = {y for _, y in got.values()}
        self.assertTrue(self.shapes.line_of(1) < height < self.shapes.line_of(2))
        self.assertEqual((self.shapes.of_class('accepted'), self.shapes.of_class('lag')), ([], []))

    def test_nothing_stands_outside(self):
        width, height = int(self.shapes.root.get('width')), int(self.shapes.root.get('height'))
        for x, y in self.shapes.words().values():
            self.assertTrue(0 <= x < width and 0 <= y < height)


class Lag(unittest.TestCase):
    """A queue of two items that is full when the third is due."""

    def places(self, shapes):
        words = shapes.words()
        (end,) = shapes.of_class('lag', subscription=0)
        self.assertTrue(words['2.0'][0] < int(end.get('x1')) < words['3.0'][0])
        self.assertIn('lagged', words)
        self.assertEqual(set(shapes.items('delivered', 0)), {'0 1', '0 2'})
        self.assertEqual(set(shapes.dots('log', '0 3')), {0})

    def test_the_span_ends_before_the_third_row(self):
        self.places(Shapes.of_script('lag'))

    def test_the_output_alone_says_so_too(self):
        self.places(Shapes.of_script('lag', with_script=False))

    def test_the_other_subscription_goes_on(self):
        shapes = Shapes.of_script('two_services')
        self.assertEqual(len(shapes.of_class('lag', subscription=0)), 1)
        self.assertEqual(shapes.of_class('lag', subscription=1), [])
        self.assertEqual(set(shapes.items('delivered', 1)), {'3 1', '2 1', '2 2'})

    def test_who_unsubscribes_has_not_lagged(self):
        for with_script in (True, False):
            shapes = Shapes.of_script('ended_span', with_script)
            self.assertEqual(shapes.of_class('lag'), [])
            self.assertIn('ended', shapes.words())

    def test_an_open_span_has_no_end(self):
        words = Shapes.of_script('crossing').words()
        self.assertFalse({'ended', 'lagged'} & set(words))


class Withdrawal(unittest.TestCase):
    """A refuses transaction 1 of sender 1, which had a ticket at B."""

    def test_it_stands_beside_the_stamps(self):
        shapes = Shapes.of_script('full_clock')
        words = shapes.words()
        self.assertGreater(words['withdrawn'][0], words['18446744073709551615.0'][0])
        self.assertGreater(words['18446744073709551615.0'][0], words['2.1'][0])
        self.assertEqual(shapes.dots('ticket', '1 1'), {1: (words['withdrawn'][0], shapes.line_of(1))})
        (cross,) = shapes.of_class('cross')
        self.assertEqual((cross.get('data-topic'), cross.get('data-transaction')), ('0', '1 1'))
        self.assertEqual(shapes.of_class('log', transaction='1 1'), [])

    def test_the_output_alone_says_that_it_has_no_stamp(self):
        words = Shapes.of_script('full_clock', with_script=False).words()
        self.assertIn('no stamp', words)
        self.assertNotIn('withdrawn', words)


class Others(unittest.TestCase):
    def test_a_part_that_waits_is_hollow(self):
        shapes = Shapes.of_script('undecided')
        self.assertEqual((set(shapes.dots('log', '1 1')), set(shapes.dots('waits', '1 1'))), ({0}, {1}))

    def test_a_trace_does_not_say_what_was_delivered(self):
        shapes = Shapes(os.path.join(HERE, 'traces', 'agreeing.trace'))
        self.assertEqual(shapes.of_class('delivered'), [])
        self.assertEqual((set(shapes.items('accepted', 0)), set(shapes.items('accepted', 1))), ({'1 1', '0 1'}, {'0 1'}))

    def test_an_item_that_was_not_taken_is_hollow(self):
        shapes = Shapes.of_script('disconnect')
        self.assertEqual((set(shapes.items('accepted', 0)), shapes.items('delivered', 0)), ({'0 1'}, {}))

    def test_the_pictures_of_the_pages_are_these(self):
        names = sorted(name[:-4] for name in os.listdir(PICTURES))
        self.assertEqual(names, ['crossing', 'full_clock', 'lag', 'two_services'])
        for name in names:
            with open(os.path.join(PICTURES, name + '.svg'), encoding='utf-8') as stored:
                self.assertEqual(Shapes.of_script(name).text, stored.read(), name)

    def test_a_refused_script_is_not_drawn(self):
        with self.assertRaises(subprocess.CalledProcessError):
            picture(os.path.join(SCRIPTS, 'bad_line.out'), '--svg')

    def test_letters(self):
        self.assertEqual(picture(os.path.join(SCRIPTS, 'lag.out')).splitlines(), [
            'stamp         1.0   2.0   3.0', 'transaction   0 1   0 2   0 3',
            'topic 0       o-----o-----o-----', '  sub 0       *     *'])


if __name__ == '__main__':
    unittest.main()
