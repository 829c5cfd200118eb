"""Replies: read, written, and what their values stand for; refusals; document 02's cases; and what is taken for a reply."""

from __future__ import annotations

import itertools
import random
import unittest
from typing import Any, Callable, Iterator, List, Tuple, Union

import smclp
from common import CONSTANTS, HEADER, bytes_of, cells, refused, told
from smclp import End, Group, Item

WORKED = b'status=0\nbegingroup=cpu\nName="a`"\nb"\nendgroup\nendoutput\n'
WORKED_RECORDS = bytes.fromhex('40 00 00 00 06 00 07 00 01 41 00 14 00 03 40 00 18 00 04 00 1D 00 07 42 43')
OPENED = b'begingroup=g\n'

Said = Union[Tuple[str, bytes], str, End]
Takes = Callable[[Any], Any]


class Worked(unittest.TestCase):
    """The example that clp.h works out."""

    def test_it_is_that_of_the_header(self) -> None:
        lines = ''.join(f' *     {line}\n' for line in WORKED.decode().splitlines())
        self.assertIn(lines, HEADER)
        self.assertEqual((len(WORKED), len(WORKED_RECORDS)), (56, 25))

    def test_read(self) -> None:
        reply = smclp.read_reply(WORKED)
        self.assertEqual((reply.text, reply.records), (WORKED, WORKED_RECORDS))
        status, name = Item(slice(0, 6), slice(7, 8)), Item(slice(24, 28), slice(29, 36))
        self.assertEqual(reply.entries, (status, Group(slice(20, 23)), name, End.GROUP, End.OUTPUT))
        self.assertEqual(reply.items, (status, name))
        self.assertEqual([reply.value(item) for item in reply.items], [b'0', b'a"\nb'])
        self.assertEqual(smclp.reply_value(WORKED[29:36]), b'\x61\x22\x0a\x62')

    def test_written(self) -> None:
        said: List[Said] = [('status', b'0'), 'cpu', ('Name', b'a"\nb'), End.GROUP, End.OUTPUT]
        self.assertEqual(smclp.write_reply(said), WORKED)
        said[2] = ('Name', WORKED[29:36])  # raw: quoted once more
        again = bytes.fromhex('22 60 22 61 60 60 60 22 0A 62 60 22 22')
        self.assertEqual(smclp.write_reply(said), WORKED[:29] + again + WORKED[36:])
        self.assertEqual(len(smclp.write_reply(said)), 62)


class Read(unittest.TestCase):
    def test_ends_of_line(self) -> None:
        entries = smclp.read_reply(b'a=1\nbegingroup=g\nendgroup\nendoutput').entries
        self.assertEqual(smclp.read_reply(b'a=1\rbegingroup=g\rendgroup\rendoutput\r\n$ ').entries, entries)
        self.assertNotEqual(smclp.read_reply(b'a=1\r\nbegingroup=g\nendgroup\nendoutput').entries, entries)  # a byte later

    def test_most_records(self) -> None:
        text = b'a=\n' * 21842 + b'endoutput'
        reply = smclp.read_reply(text)
        self.assertEqual((len(text), len(reply.records)), (CONSTANTS['REPLY_BYTES'], CONSTANTS['REPLY_RECORDS_BYTES']))
        self.assertEqual(len(reply.items), 21842)
        self.assertEqual(reply.items[-1], Item(slice(65523, 65524), slice(65525, 65525)))
        self.assertEqual(refused(smclp.read_reply, text + b'\n'), (21, 0))
        self.assertEqual(refused(smclp.read_reply, b'\n' * 1000_000), (21, 0))

    def test_room_is_enough_for_short_ones(self) -> None:
        for text in (b'endoutput', b'a=\nendoutput', b'a=\na=\nendoutput\n'):
            self.assertEqual(smclp.read_reply(text).entries[-1], End.OUTPUT)

    def test_refusals(self) -> None:
        self.assertEqual(refused(smclp.read_reply, b'a=1\r\n\r\nb\r\nendoutput'), (21, 7))
        self.assertEqual(refused(smclp.read_reply, b'a="\n"b\nendoutput'), (21, 0))
        self.assertEqual(refused(smclp.read_reply, OPENED + b'endgroup\nendgroup\n'), (22, 22))
        self.assertEqual(refused(smclp.read_reply, OPENED * 9), (23, 104))
        self.assertEqual(refused(smclp.read_reply, OPENED * 8 + b'begingroup=\n'), (21, 104))
        self.assertEqual(refused(smclp.read_reply, OPENED + b'endoutput'), (24, 13))
        self.assertEqual(refused(smclp.read_reply, OPENED + b'a="'), (25, 16))
        self.assertEqual(refused(smclp.read_reply, b''), (25, 0))
        with self.assertRaisesRegex(smclp.Refused, 'refused as 24 at 13: `endoutput`, and a group is open$'):
            smclp.read_reply(OPENED + b'endoutput')

    def test_values(self) -> None:
        self.assertEqual(smclp.reply_value(b'"``a`"b`c\r\n"'), b'`a"b`c\r\n')
        self.assertEqual(smclp.reply_value(b'a"b`"``'), b'a"b`"``')
        self.assertEqual((smclp.reply_value(b''), smclp.reply_value(b'""')), (b'', b''))
        for raw in (b'"', b'"a', b'"a`"', b'"a"b', b'"a"\n'):
            self.assertEqual(refused(smclp.reply_value, raw), (21, 0), raw)
        self.assertEqual(len(smclp.reply_value(b'"' + b'x' * 200_000 + b'"')), 200_000)  # longer than a reply

    def test_equal_by_value(self) -> None:
        reply = smclp.read_reply(WORKED)
        self.assertEqual((reply, hash(reply)), (smclp.read_reply(WORKED), hash(smclp.read_reply(WORKED))))
        self.assertNotEqual(reply, smclp.read_reply(WORKED + b'$'))  # the same records
        self.assertNotEqual(reply, WORKED)
        self.assertNotEqual(End.GROUP, End.OUTPUT)

    def test_shown(self) -> None:
        self.assertEqual(repr(smclp.read_reply(WORKED)), '<Reply of 56 bytes: 2 items>')
        self.assertEqual(repr(smclp.read_reply(b'a=1\nendoutput')), '<Reply of 13 bytes: 1 item>')

    def test_read_only(self) -> None:
        reply = smclp.read_reply(WORKED)
        for name in ('text', 'records', 'entries', 'items', 'other'):
            with self.assertRaises(AttributeError):
                setattr(reply, name, None)


class Written(unittest.TestCase):
    def test_quotes(self) -> None:
        written = {b'': b'', b'b': b'b', b'b"`': b'b"`', b'"': b'"`""', b'`\n"': b'"``\n`""', b'\r': b'"\r"', b'#=': b'#='}
        for value, raw in written.items():
            reply = smclp.write_reply([('a', value), End.OUTPUT])
            self.assertEqual(reply, b'a=' + raw + b'\nendoutput\n')
            (item,) = smclp.read_reply(reply).items
            self.assertEqual(smclp.read_reply(reply).value(item), value)

    def test_up_to_the_first_end(self) -> None:
        self.assertEqual(smclp.write_reply([End.OUTPUT, End.GROUP, ('1', b'')]), b'endoutput\n')

    def test_words(self) -> None:
        write: Takes = smclp.write_reply
        said = ((b'a', bytearray(b'1')), b'g', (b'a', memoryview(b'1')), End.GROUP, End.OUTPUT)
        again = (entry for entry in (('a', b'1'), 'g', ('a', b'1'), End.GROUP, End.OUTPUT))
        self.assertEqual(write(said), write(again))
        self.assertEqual(write(['endgroup', End.GROUP, End.OUTPUT]), b'begingroup=endgroup\nendgroup\nendoutput\n')

    def test_refusals(self) -> None:
        def at(*said: Said) -> Tuple[int, int]:
            return refused(smclp.write_reply, said)

        item = ('a', b'')
        for word in ('', '1', 'a b', 'a' * 65):
            self.assertEqual((at(item, (word, b''), End.OUTPUT), at(item, word, End.GROUP, End.OUTPUT)), ((21, 9), (21, 9)))
        for word in ('begingroup', 'endgroup', 'endoutput'):
            self.assertEqual(at((word, b''), End.OUTPUT), (21, 0))
        self.assertEqual((at(item, End.GROUP, End.OUTPUT), at('g', End.GROUP, End.GROUP)), ((22, 9), (22, 6)))
        self.assertEqual(at(*['g'] * 9), (23, 40))
        self.assertEqual((at('g', End.OUTPUT), at('g', item, End.OUTPUT)), ((24, 5), (24, 14)))
        self.assertEqual((at(), at(item), at('g')), ((25, 0), (25, 9), (25, 5)))

    def test_most(self) -> None:
        items: List[Said] = [('a', b'')]
        reply = smclp.write_reply([('a', b'x' * 65522), End.OUTPUT])
        self.assertEqual((len(reply), reply[-12:]), (CONSTANTS['REPLY_BYTES'], b'x\nendoutput\n'))
        self.assertEqual(refused(smclp.write_reply, [('a', b'x' * 65523), End.OUTPUT]), (21, 0))
        self.assertEqual(len(smclp.write_reply(items * 21841 + [End.OUTPUT])), 65533)
        self.assertEqual(refused(smclp.write_reply, items * 21842 + [End.OUTPUT]), (21, 0))
        self.assertEqual(refused(smclp.write_reply, items * 50_000), (25, 450_000))
        # a text that is too long, of one value and of many; before all else
        long: Tuple[List[Said], ...] = ([('a', b'x' * 65535)], items * 65536, [('a', b'x' * 1000_000), End.GROUP], ['a' * 70_000])
        for said in long:
            self.assertEqual(refused(smclp.write_reply, said), (21, 0))

    def test_other_types(self) -> None:
        write: Takes = smclp.write_reply
        types: Tuple[Any, ...] = (None, 5, slice(0, 1), ('a', 'text'), ('a', 5), (5, b''), Item(slice(1), slice(1)), ['a', b''])
        values: Tuple[Any, ...] = (('a',), ('a', b'', b''), Group(slice(0, 1)), 'ä', ('ä', b''))
        for entry in types:
            with self.assertRaises(TypeError):
                write([entry, End.OUTPUT])
        for entry in values:
            with self.assertRaises(ValueError):
                write([entry, End.OUTPUT])


class Lent(unittest.TestCase):
    def test_any_kind_of_bytes(self) -> None:
        for lent in (bytearray(WORKED), memoryview(WORKED), memoryview(bytearray(WORKED))):
            self.assertEqual(smclp.read_reply(lent), smclp.read_reply(WORKED))
        lent = bytearray(WORKED)
        reply = smclp.read_reply(lent)
        lent[:] = b'!'  # nothing holds on to it
        self.assertEqual((reply.text, type(reply.text)), (WORKED, bytes))
        self.assertEqual(smclp.reply_value(bytearray(b'"a"')), b'a')

    def test_other_types(self) -> None:
        functions: Tuple[Takes, ...] = (smclp.read_reply, smclp.reply_value)
        for function in functions:
            for lent in ('a=1', None, 5, [97], 1.5):
                with self.assertRaises(TypeError):
                    function(lent)


def some(random_one: random.Random) -> Iterator[Said]:
    """A reply's entries by the rules, at random."""
    depth = 0
    for _ in range(random_one.randrange(12)):
        kind = random_one.randrange(4)
        if kind == 0 and depth < 8:
            depth += 1
            yield random_one.choice(['g', 'endgroup', 'A_9'])
        elif kind == 1 and depth:
            depth -= 1
            yield End.GROUP
        else:
            value = random_one.choices(b'"`\r\n=# a\x00\xff', k=random_one.randrange(6))
            yield random_one.choice(['a', 'Endgroup', 'x' * 64]), bytes(value)
    yield from itertools.repeat(End.GROUP, depth)
    yield End.OUTPUT


class ReadBack(unittest.TestCase):
    def test_what_is_written_reads_back(self) -> None:
        random_one = random.Random(7)
        for _ in range(5_000):
            said = list(some(random_one))
            reply = smclp.read_reply(smclp.write_reply(said))
            back: List[Said] = []
            for entry in reply.entries:
                if isinstance(entry, Item):
                    back.append((reply.text[entry.keyword].decode(), reply.value(entry)))
                else:
                    back.append(reply.text[entry.type].decode() if isinstance(entry, Group) else entry)
            self.assertEqual(back, said)


KINDS = {'item': 64, 'group': 65, 'endgroup': 66, 'endoutput': 67}


def records_of(cell: str) -> bytes:
    """Records as the vectors have them: a word and its fields, so many times, joined by '; '."""
    if cell == 'none':
        return b''
    records = b''
    for told_record in cell.split('; '):
        record, _, times = told_record.partition(' x ')
        word, *fields = record.split(' ')
        if word == 'raw':
            made = bytes.fromhex(fields[0])
        else:
            made = bytes([KINDS[word]]) + b''.join(int(field).to_bytes(2, 'big') for field in fields)
        records += made * int(times or 1)
    return records


class Vectors(unittest.TestCase):
    """Document 02's cases, through the library as the module calls it, and through the module where the room is its own."""

    def test_all(self) -> None:
        library = smclp._library()
        counts = {'read': 0, 'write': 0}
        for case, (what, told_records, told_text, told_room, answer) in cells('02-e.tsv', 5):
            text = bytes_of(told_text)
            room = int(told_room) if told_room else max(smclp._REPLY_BYTES, 3 * len(text))
            if what == 'read':
                self.assertEqual(told_records, '', case)
                expected: object = answer if answer.startswith('refusal ') else records_of(answer)
                self.assertEqual(told(smclp._written, library.read_reply, room, text, len(text)), expected, case)
                if not told_room:
                    self.assertEqual(told(lambda reply: smclp.read_reply(reply).records, text), expected, case)
            else:
                records = records_of(told_records)
                expected = answer if answer.startswith('refusal ') else bytes_of(answer)
                lent = records, len(records), text, len(text)
                self.assertEqual(told(smclp._written, library.write_reply, room, *lent), expected, case)
            counts[what] += 1
        self.assertEqual(counts, {'read': 117, 'write': 78})


if __name__ == '__main__':
    unittest.main()
