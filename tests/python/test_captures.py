"""From bytes to lines: in whatever parts a capture comes, byte by byte with places, and in several threads at once."""

from __future__ import annotations

import ctypes
import random
import re
import threading
import unittest
from typing import Iterator, List, Tuple

import smclp
from common import CAPTURE, CONSTANTS, LIBRARY

MOST = CONSTANTS['LINE_BYTES']

# Each end of a line, joins with each of them, blank and refused lines, lines that are too long or just not, and a cut one.
MIXED = b''.join(
    (
        b'show -l 2 /system1 Name\r\n\ncd\rcd a`\rb1\ncd a`\nb1\r\ncd a`\r\nb1\r\r\n',
        b'reset "os1\n`\n\n``\n',
        b'set A="' + b'x' * (MOST - 8) + b'"\n',
        b'set A="' + b'x' * (MOST - 7) + b'"\r\n',
        b'x' * (MOST - 1) + b'`y\n',
        b'x' * MOST + b'`\r\n\n',
        b'exit\rsho',
    )
)


class ByTheRules:
    """The lines of a capture, joined anew: the places of each one's bytes and of the byte that ended it; the places of those
    after the last end; and whether these are a line that is cut, as they are with a backtick that waits, too."""

    def __init__(self, capture: bytes) -> None:
        self.ended: List[List[int]] = []
        self.rest: List[int] = []
        self.cut = False
        at = 0
        while at < len(capture):
            is_end = re.compile(b'\r\n|[\r\n]').match(capture, at)
            joins = re.compile(b'`(?:\r\n|[\r\n])').match(capture, at)
            if joins:
                at = joins.end()
            elif is_end:
                self.ended.append(self.rest + [at])
                self.rest = []
                at = is_end.end()
            else:
                length = 2 if capture[at] == ord('`') else 1
                self.cut = at + length > len(capture)
                self.rest += [] if self.cut else range(at, at + length)
                at += length
        self.cut = self.cut or bool(self.rest)


def drawn(chance: random.Random) -> bytes:
    """A capture of mostly x and y with the bytes that joining looks at in between, often or so seldom that lines grow long."""
    seldom = chance.choice((2, 20, 200, 2000))
    often = b'``\r\n\r\na "x'
    graves = chance.choice((b'xy', b'xy`'))
    made = bytes(chance.choice(often if chance.randrange(seldom) == 0 else graves) for _ in range(chance.randrange(3000)))
    return made + chance.choice((b'', b'\n', b'\r\n'))


def placed(capture: bytes) -> Tuple[List[Tuple[smclp.Line, List[int]]], bool]:
    """The lines of a capture with the offsets of their bytes, and whether the last one is cut."""
    found = []
    joiner: smclp.Placed[int] = smclp.Placed()
    for offset, byte in enumerate(capture):
        ended = joiner.join(byte, offset)
        if ended is not None:
            found.append(ended)
    last = joiner.end()
    return (found, False) if last is None else (found + [last], True)


class Parts(unittest.TestCase):
    def test_the_first_capture(self) -> None:
        lines = list(smclp.lines([CAPTURE.read_bytes()]))
        self.assertEqual([line.text for line in lines], [b'show -level 2 /system1/cpu* Name', b'reset "os1', b'', b'cd'])
        self.assertEqual(lines[0], smclp.read(lines[0].text))
        self.assertEqual([line.refusal for line in lines], [None, smclp.Refused(4, 6), None, None])
        self.assertEqual([line.blank for line in lines], [False, False, True, False])
        self.assertEqual([line.cut for line in lines], [False, False, False, True])
        listed = b''.join(smclp.records_text(line.records) for line in lines)
        self.assertEqual(listed, CAPTURE.with_name('stdout').read_bytes())

    def test_mixed(self) -> None:
        lines = list(smclp.lines([MIXED]))
        first = [b'show -l 2 /system1 Name', b'', b'cd', b'cd ab1', b'cd ab1', b'cd ab1', b'', b'reset "os1', b'', b'``']
        self.assertEqual([line.text for line in lines[:10]], first)
        fits, too_long, split, whole, last, cut = lines[10:]
        self.assertEqual((len(fits.text), fits.refusal), (MOST, None))
        for line, text in ((too_long, b'set A="' + b'x' * (MOST - 7)), (split, b'x' * (MOST - 1) + b'`')):
            self.assertEqual((line.text, line.refusal, line.records), (text, smclp.Refused(1, MOST), b'\x05\x01\x04\x00'))
            self.assertEqual(line.parts, ())
        self.assertEqual((whole.text, whole.refusal), (b'x' * MOST, smclp.Refused(6, 0)))
        self.assertEqual((last.text, cut.text, cut.cut, cut.records, cut.parts), (b'exit', b'sho', True, b'\x07', ()))

    def test_cut_at_every_byte(self) -> None:
        expected = list(smclp.lines([MIXED]))
        self.assertEqual(len(expected), 16)
        for at in range(len(MIXED) + 1):
            self.assertEqual(list(smclp.lines([MIXED[:at], MIXED[at:]])), expected, at)
        for length in (1, 2, 3, 7, 1000):
            parts = [MIXED[at : at + length] for at in range(0, len(MIXED), length)]
            self.assertEqual(list(smclp.lines(parts)), expected)
            self.assertEqual(list(smclp.lines(part for whole in parts for part in (b'', whole, b''))), expected)

    def test_ends(self) -> None:
        cuts = {b'': None, b'cd\n': None, b'cd\r': None, b'cd\r\n': None, b'c': b'c', b'`': b'', b'c`': b'c', b'c`\n': b'c'}
        cuts.update({b'`\r': None, b'`\n': None, b'\n`': b'', b'x' * 1100: b'x' * MOST, b'x' * MOST + b'`': b'x' * MOST})
        for capture, text in cuts.items():
            last = [line.text for line in smclp.lines([capture]) if line.cut]
            self.assertEqual(last, [] if text is None else [text], capture)

    def test_as_clp_list_gives_them(self) -> None:
        """The records and their order are those of clp_list itself."""
        library = ctypes.CDLL(str(LIBRARY))
        pointer, length = ctypes.c_char_p, ctypes.c_size_t
        library.clp_list.restype = smclp._Joined
        library.clp_list.argtypes = (ctypes.c_uint64, pointer, length, pointer, length, pointer, length)
        buffer, room = ctypes.create_string_buffer(MOST), ctypes.create_string_buffer(CONSTANTS['READING_BYTES'])
        state, at, records = 0, 0, []
        while at < len(MIXED):
            rest = MIXED[at:]
            answer = library.clp_list(state, buffer, len(buffer), rest, len(rest), room, len(room))
            state, at = answer.state, at + answer.used
            if answer.value != CONSTANTS['NONE']:
                records.append(room.raw[: answer.value])
        self.assertEqual([line.records for line in smclp.lines([MIXED])], records + [b'\x07'])

    def test_lines_are_lazy(self) -> None:
        def parts() -> Iterator[bytes]:
            yield b'cd\ncd'
            raise AssertionError('asked for too soon')

        self.assertEqual(next(smclp.lines(parts())).text, b'cd')

    def test_no_copies_of_the_rest(self) -> None:
        class Part(bytes):
            def __getitem__(self, at: object) -> bytes:  # type: ignore[override]
                raise AssertionError('a part is not cut')

        self.assertEqual(list(smclp.lines([Part(MIXED)])), list(smclp.lines([MIXED])))

    def test_other_parts(self) -> None:
        expected = list(smclp.lines([MIXED]))
        for part in (bytearray(MIXED), memoryview(MIXED), memoryview(bytearray(MIXED))):
            self.assertEqual(list(smclp.lines([part])), expected)
        bad: Tuple[object, ...] = (MIXED, ['cd'], [None], [5], 5)
        for parts in bad:
            with self.assertRaises(TypeError):
                list(smclp.lines(parts))  # type: ignore[arg-type]


class Feeding(unittest.TestCase):
    def test_a_live_tap(self) -> None:
        joiner = smclp.Joiner()
        self.assertEqual(list(joiner.feed(b'cd /sys')), [])
        self.assertEqual([line.text for line in joiner.feed(b'tem1\r')], [b'cd /system1'])
        self.assertEqual([line.text for line in joiner.feed(b'\ncd\n\nsh')], [b'cd', b''])
        last = joiner.end()
        assert last is not None
        self.assertEqual((last.text, last.cut), (b'sh', True))

    def test_a_part_is_used_at_once(self) -> None:
        joiner = smclp.Joiner()
        joiner.feed(b'exit\ncd')
        found = joiner.feed(b' /a1\nshow\n')
        self.assertEqual(next(found).text, b'cd /a1')
        self.assertEqual([line.text for line in joiner.feed(b'cd\n')], [b'cd'])
        self.assertEqual([line.text for line in found], [b'show'])

    def test_as_new_after_the_end(self) -> None:
        joiner = smclp.Joiner()
        for part in (b'cd', b'cd\r', b'x' * 2000, b'a`'):
            list(joiner.feed(part))
            joiner.end()
            self.assertIsNone(joiner.end())
            self.assertEqual([line.text for line in joiner.feed(b'\nexit\n')], [b'', b'exit'])

    def test_two_do_not_meet(self) -> None:
        one, other = smclp.Joiner(), smclp.Joiner()
        list(one.feed(b'cd '))
        list(other.feed(b'show '))
        self.assertEqual([line.text for line in one.feed(b'a1\n')], [b'cd a1'])
        self.assertEqual([line.text for line in other.feed(b'b1\n')], [b'show b1'])


class Places(unittest.TestCase):
    def test_joins(self) -> None:
        for end in (b'\r', b'\n', b'\r\n'):
            capture = b'cd a`' + end + b'1' + end + b'cd' + end
            (first, places), (second, others) = placed(capture)[0]
            after = 5 + len(end)
            self.assertEqual((first.text, places), (b'cd a1', [0, 1, 2, 3, after, after + 1]))
            start = after + 1 + len(end)
            self.assertEqual((second.text, others), (b'cd', [start, start + 1, start + 2]))

    def test_any_place(self) -> None:
        joiner: smclp.Placed[Tuple[int, str]] = smclp.Placed()
        self.assertIsNone(joiner.join(ord('x'), (1, 'a')))
        self.assertEqual(joiner.join(ord('\n'), (2, 'b')), (smclp.Line(b'x', b'\x05\x06\0\0'), [(1, 'a'), (2, 'b')]))

    def check(self, capture: bytes) -> Tuple[int, int]:
        """Holds the lines of a capture to the rules; how many of them are joined, and how many too long."""
        found, cut = placed(capture)
        rules = ByTheRules(capture)
        self.assertEqual([line for line, _ in found], list(smclp.lines([capture])))
        self.assertEqual((len(found), cut), (len(rules.ended) + rules.cut, rules.cut))
        for (line, places), expected in zip(found, rules.ended):
            self.assertEqual(places, expected[: MOST + 1])
            self.assertEqual(line.text, bytes(capture[at] for at in places[:-1]))
            self.assertEqual(line.refusal == smclp.Refused(1, MOST), len(expected) > MOST + 1)
        if cut:
            line, places = found[-1]
            self.assertEqual(places, rules.rest[: MOST + 1])
            self.assertEqual(line.text, bytes(capture[at] for at in places[:MOST]))
        many_joined = sum(places[-1] - places[0] >= len(places) for places in rules.ended)
        return many_joined, sum(len(places) > MOST + 1 for places in rules.ended)

    def test_mixed(self) -> None:
        self.assertEqual(self.check(MIXED), (4, 2))

    def test_drawn(self) -> None:
        chance = random.Random(1)
        counts = [self.check(drawn(chance)) for _ in range(200)]
        self.assertGreater(sum(many for many, _ in counts), 1000)
        self.assertGreater(sum(many for _, many in counts), 20)

    def test_as_new_after_the_end(self) -> None:
        joiner: smclp.Placed[int] = smclp.Placed()
        for capture in (b'cd', b'cd`', b'`', b'x' * 1100, b'\r'):
            for offset, byte in enumerate(capture):
                joiner.join(byte, offset)
            joiner.end()
            self.assertIsNone(joiner.end())
            self.assertIsNone(joiner.join(ord('a'), 7))
            ended = joiner.join(ord('\n'), 8)
            assert ended is not None
            self.assertEqual((ended[0].text, ended[1]), (b'a', [7, 8]))

    def test_other_bytes(self) -> None:
        joiner: smclp.Placed[int] = smclp.Placed()
        for number in (-1, 256, 2**64):
            with self.assertRaises(ValueError):
                joiner.join(number, 0)
        for other in ('a', b'a', None, 1.0):
            with self.assertRaises(TypeError):
                joiner.join(other, 0)  # type: ignore[arg-type]
        self.assertIsNone(joiner.end())


class Threads(unittest.TestCase):
    def test_many_at_once(self) -> None:
        """Each thread has its own captures, lines and tree, and gets what it would get alone."""
        tree = smclp.Tree.of([(0, 'system', 1)] + [(1, 'cpu', number) for number in range(1, 20)])

        def answers(seed: int) -> List[object]:
            chance = random.Random(seed)
            found: List[object] = []
            for _ in range(40):
                capture = drawn(chance) + b'show -l %d /system1/cpu%d A==%d\n' % (seed, seed, seed) * 20
                for line in smclp.lines([capture]):
                    found += [line, line.parts]
                    if line.verb is not None:
                        found += [smclp.read(line.text), smclp.canonical(line.text), list(smclp.terms(line.text))]
                        found += [smclp.target(line.text), smclp.meant(line.text), smclp.records_text(line.records)]
                        found += [tree.resolve(b'/system1/cpu%d' % (seed + 1)), tree.full_path(seed + 1)]
            return found

        seeds = range(8)
        alone = {seed: answers(seed) for seed in seeds}
        together = {}

        def run(seed: int) -> None:
            together[seed] = answers(seed)

        threads = [threading.Thread(target=run, args=(seed,)) for seed in seeds]
        for thread in threads:
            thread.start()
        for thread in threads:
            thread.join()
        self.assertGreater(len(alone[0]), 5000)
        self.assertEqual(together, alone)


if __name__ == '__main__':
    unittest.main()
