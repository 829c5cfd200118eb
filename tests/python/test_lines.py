"""Reading a line: its parts, its terms, its target, its writings; refusals; and what is taken for a line."""

from __future__ import annotations

import pickle
import unittest
from typing import Any, Callable, Dict, Tuple

import smclp
from common import CONSTANTS, bytes_of, cells, refused, told

WORKED = b'show -level 2 /system1/cpu* Name'
WORKED_RECORDS = bytes.fromhex('01 0A 02 08 00 0C 00 01 03 00 0E 00 0D 04 00 1C 00 04 00 00 20 00 00')

ReadsLine = Callable[[Any], Any]
READING: Tuple[ReadsLine, ...] = (smclp.read, smclp.canonical, smclp.meant, smclp.target, lambda line: list(smclp.terms(line)))


class Worked(unittest.TestCase):
    """The examples that clp.h works out."""

    def test_records(self) -> None:
        line = smclp.read(WORKED)
        self.assertEqual(line.records, WORKED_RECORDS)
        self.assertEqual(line.text, WORKED)

    def test_parts(self) -> None:
        line = smclp.read(WORKED)
        verb = smclp.Verb(10, 'show', slice(0, 4))
        option = smclp.Option(8, 'level', slice(5, 11), slice(12, 13))
        target = smclp.Target(slice(14, 27))
        name = smclp.Property(slice(28, 32), '', None, None)
        self.assertEqual(line.parts, (verb, option, target, name))
        self.assertEqual((line.verb, line.options, line.target, line.properties), (verb, (option,), target, (name,)))
        self.assertEqual((line.refusal, line.blank, line.cut), (None, False, False))

    def test_text_of_records(self) -> None:
        expected = b'verb 10\noption 8 12 1\ntarget 14 13\nproperty 28 4 0 32 0\n'
        self.assertEqual(smclp.records_text(WORKED_RECORDS), expected)
        self.assertEqual(smclp.records_text(b'\x05\x04\x00\x06\x06\x07'), b'refusal 4 6\nblank\ncut\n')
        self.assertEqual(smclp.records_text(b''), b'')

    def test_places(self) -> None:
        self.assertEqual(refused(smclp.read, b'show -level 02'), (10, 13))
        self.assertEqual(refused(smclp.read, b'cd /system1/'), (12, 12))
        self.assertEqual(refused(smclp.read, b'set a=b=c'), (13, 7))

    def test_upper_case(self) -> None:
        line = smclp.read(b'SHOW -L ALL')
        self.assertEqual(line.parts, smclp.read(b'show -l all').parts)
        self.assertEqual(line.text[line.options[0].argument or slice(0)], b'ALL')


class Parts(unittest.TestCase):
    def test_signs_and_values(self) -> None:
        line = smclp.read(b'set /system1 a=1 b=="x y" c d=(e,`()')
        told = []
        for part in line.properties:
            sign = b'' if part.sign is None else line.text[part.sign]
            value = None if part.value is None else line.text[part.value]
            self.assertEqual(sign, part.operator.encode())
            told.append((line.text[part.name], part.operator, value))
        expected = [(b'a', '=', b'1'), (b'b', '==', b'"x y"'), (b'c', '', None), (b'd', '=', b'(e,`()')]
        self.assertEqual(told, expected)

    def test_places_of_options(self) -> None:
        line = smclp.read(b'  LOAD  -source  `-x` y -F   -keep 30 -o  a=b -x .')
        told = [(line.text[part.at], part.name, part.argument and line.text[part.argument]) for part in line.options]
        expected = [(b'-source', 'source', b'`-x` y'), (b'-F', 'force', None), (b'-keep', 'keep', b'30')]
        self.assertEqual(told, expected + [(b'-o', 'output', b'a=b'), (b'-x', 'examine', None)])
        assert line.verb is not None and line.target is not None
        self.assertEqual((line.text[line.verb.at], line.text[line.target.at]), (b'LOAD', b'.'))

    def test_topics_are_properties(self) -> None:
        line = smclp.read(b'help show level')
        self.assertEqual([line.text[part.name] for part in line.properties], [b'show', b'level'])
        self.assertIsNone(line.target)

    def test_blank(self) -> None:
        for text in (b'', b'   '):
            line = smclp.read(text)
            self.assertEqual((line.text, line.records), (text, b'\x06'))
            self.assertEqual((line.blank, line.cut, line.refusal), (True, False, None))
            self.assertEqual((line.parts, line.verb, line.options, line.target, line.properties), ((), None, (), None, ()))

    def test_equal_by_value(self) -> None:
        self.assertEqual(smclp.read(WORKED), smclp.read(WORKED))
        self.assertEqual(hash(smclp.read(WORKED)), hash(smclp.read(WORKED)))
        self.assertNotEqual(smclp.read(b'cd a1'), smclp.read(b'cd b1'))  # the same records
        self.assertNotEqual(smclp.read(b'cd'), next(iter(smclp.lines([b'cd']))))  # the same text, but cut
        self.assertNotEqual(smclp.read(b'cd'), b'cd')

    def test_shown(self) -> None:
        shown = [repr(line) for line in smclp.lines([b'show .\nreset "os1\n\nc'])]
        expected = ["<Line b'show .': show>", "<Line b'reset \"os1': refused as 4 at 6>", "<Line b'': blank>", "<Line b'c': cut>"]
        self.assertEqual(shown, expected)

    def test_read_only(self) -> None:
        line = smclp.read(WORKED)
        for name in ('text', 'records', 'refusal', 'blank', 'cut', 'parts', 'verb', 'options', 'target', 'properties', 'other'):
            with self.assertRaises(AttributeError):
                setattr(line, name, None)


class Texts(unittest.TestCase):
    def test_terms(self) -> None:
        self.assertEqual(list(smclp.terms(WORKED)), [slice(0, 4), slice(5, 11), slice(12, 13), slice(14, 27), slice(28, 32)])
        self.assertEqual(list(smclp.terms(b'  ')), [])
        self.assertEqual(list(smclp.terms(b'no "such verb"')), [slice(0, 2), slice(3, 14)])
        self.assertEqual(refused(smclp.terms, b'reset "os1'), (4, 6))

    def test_target(self) -> None:
        self.assertEqual(smclp.target(WORKED), slice(14, 27))
        for text in (b'', b'cd', b'reset "os1', b'cd /system1 -x', b'x' * 2000):
            self.assertIsNone(smclp.target(text))

    def test_canonical(self) -> None:
        self.assertEqual(smclp.canonical(b'Show  -L ALL \\system1 A="b"'), b'show -level all /system1 A=b')
        self.assertEqual(smclp.canonical(b' '), b'')
        self.assertEqual(refused(smclp.canonical, b'reset "os1'), (4, 6))

    def test_meant(self) -> None:
        self.assertEqual(smclp.meant(b'"a`"b"'), b'a"b')
        self.assertEqual(smclp.meant(b''), b'')
        every = bytes(range(256)) * 20
        self.assertEqual(smclp.meant(every), every.replace(b'"', b'').replace(b'``', b'`'))

    def test_most_records(self) -> None:
        text = b'show -a -d a -x -f -h -k 1 -l 1 -o a -v -w .' + b' abcdefghij==klmnopqrstuvw' * CONSTANTS['LINE_PROPERTIES']
        line = smclp.read(text)
        self.assertEqual(len(line.records), 387)
        self.assertEqual((len(line.options), len(line.properties)), (10, 32))
        self.assertTrue(all(text[part.value or slice(0)] == b'klmnopqrstuvw' for part in line.properties))
        self.assertEqual(next(iter(smclp.lines([text + b'\n']))), line)
        self.assertEqual(smclp.records_text(line.records).count(b'\n'), 44)

    def test_most_written(self) -> None:
        def lists(item: bytes) -> bytes:
            return b'a=(' + b','.join([item] * 16) + b')'

        text = b'show -x -v -f -h -w -o ' + lists(b'`x') + b' -d a=(`x,:,:)' + (b',' + lists(b'`x')) * 18
        options = b'show -examine -version -force -help -wait -output ' + lists(b'"``x"') + b' -display a=("``x",":",":")'
        writing = smclp.canonical(text)
        self.assertEqual(writing, options + (b',' + lists(b'"``x"')) * 18)
        self.assertEqual((len(text), len(writing)), (CONSTANTS['LINE_BYTES'], 1976))
        self.assertEqual(refused(smclp.read, writing), (1, 1024))


class Refusals(unittest.TestCase):
    def test_each_number(self) -> None:
        tree = smclp.Tree.of([(0, 'a', 1)])
        small_room = (smclp._written, smclp._library().read, len(WORKED_RECORDS) - 1, WORKED, len(WORKED))
        met: Dict[int, Tuple[int, Tuple[Any, ...]]] = {
            1: (1024, (smclp.read, b'x' * 1025)),
            2: (2, (smclp.read, b'cd\t')),
            3: (3, (smclp.read, b'cd `')),
            4: (6, (smclp.read, b'reset "os1')),
            5: (129, (smclp.read, b'cd' + b' a' * 64)),
            6: (0, (smclp.read, b'sho')),
            7: (3, (smclp.read, b'cd -level=2')),
            8: (8, (smclp.read, b'show -f -force')),
            9: (8, (smclp.read, b'show -l -x')),
            10: (13, (smclp.read, b'show -level 02')),
            11: (5, (smclp.read, b'cd / -x')),
            12: (12, (smclp.read, b'cd /system1/')),
            13: (7, (smclp.read, b'set a=b=c')),
            14: (132, (smclp.read, b'set' + b' b=c' * 33)),
            15: (22, (smclp.Tree, tree.records * 2)),
            16: (0, (tree.resolve, b'', 2)),
            17: (6, (tree.resolve, b'a1/../..')),
            18: (3, (tree.resolve, b'a1/a1')),
            19: (0, small_room),
            20: (3, (smclp.read, b'cd -force')),
            21: (4, (smclp.read_reply, b'a=1\nb\nendoutput')),
            22: (4, (smclp.read_reply, b'a=1\nendgroup\nendoutput')),
            23: (104, (smclp.read_reply, b'begingroup=g\n' * 9)),
            24: (13, (smclp.read_reply, b'begingroup=g\nendoutput')),
            25: (3, (smclp.read_reply, b'a=1')),
        }
        self.assertEqual(set(met), set(smclp.REFUSALS))
        for number, (place, (function, *arguments)) in met.items():
            self.assertEqual(refused(function, *arguments), (number, place))

    def test_an_exception(self) -> None:
        with self.assertRaises(smclp.Refused) as caught:
            smclp.read(b'reset "os1')
        refusal = caught.exception
        self.assertEqual(str(refusal), 'refused as 4 at 6: the quote that opens there is not closed')
        self.assertEqual(refusal.words, smclp.REFUSALS[4])
        self.assertEqual(refusal, smclp.Refused(4, 6))
        self.assertEqual(hash(refusal), hash(smclp.Refused(4, 6)))
        self.assertNotEqual(refusal, smclp.Refused(4, 7))
        self.assertNotEqual(refusal, (4, 6))
        self.assertEqual(pickle.loads(pickle.dumps(refusal)), refusal)  # it comes back from a process

    def test_of_a_line_of_a_capture(self) -> None:
        (line,) = smclp.lines([b'reset "os1\n'])
        self.assertEqual((line.text, line.records), (b'reset "os1', b'\x05\x04\x00\x06'))
        self.assertEqual(line.refusal, smclp.Refused(4, 6))
        self.assertEqual((line.blank, line.cut, line.parts, line.verb, line.target), (False, False, (), None, None))

    def test_bad_records(self) -> None:
        self.assertEqual(refused(smclp.records_text, WORKED_RECORDS[:-1]), (15, 13))
        self.assertEqual(refused(smclp.records_text, b'\x06\x08'), (15, 1))


class Lent(unittest.TestCase):
    def test_any_kind_of_bytes(self) -> None:
        spaced = memoryview(bytes(byte for pair in zip(WORKED, WORKED) for byte in pair))[::2]
        for function in READING:
            expected = function(WORKED)
            for lent in (bytearray(WORKED), memoryview(WORKED), memoryview(bytearray(WORKED)), spaced):
                self.assertEqual(function(lent), expected)
                self.assertEqual(bytes(lent), WORKED)
        self.assertEqual(smclp.records_text(bytearray(WORKED_RECORDS)), smclp.records_text(WORKED_RECORDS))

    def test_a_line_keeps_its_text(self) -> None:
        lent = bytearray(WORKED)
        line = smclp.read(lent)
        lent[:4] = b'exit'
        lent.extend(b'!')  # nothing holds on to it
        self.assertEqual((line, type(line.text)), (smclp.read(WORKED), bytes))

    def test_other_types(self) -> None:
        for function in READING + (smclp.records_text, smclp.Tree, smclp.Joiner().feed):
            for lent in ('cd', None, 5, [99, 100], 1.5):
                with self.assertRaises(TypeError):
                    function(lent)

    def test_bytes_with_zeros(self) -> None:
        self.assertEqual(refused(smclp.read, b'cd \0'), (2, 3))
        self.assertEqual(smclp.meant(b'a\0b'), b'a\0b')


def reading(line: bytes) -> str:
    return smclp.records_text(smclp.read(line).records).decode()[:-1].replace('\n', '; ')


class Vectors(unittest.TestCase):
    """Document 02's cases, with the answers that later requests changed."""

    def test_all(self) -> None:
        changed = {case: (line, answer) for _, (case, line, _, answer) in cells('changed.tsv', 4)}
        count = 0
        for name, columns in (('02-a.tsv', 3), ('02-b.tsv', 2)):
            for case, (line, answer, *writing) in cells(name, columns):
                if case in changed:
                    self.assertEqual(line, changed[case][0])
                    answer = changed.pop(case)[1]
                    writing = [answer] * len(writing)
                text = bytes_of(line)
                self.assertEqual(told(reading, text), answer, case)
                for expected in writing:
                    expected_bytes = expected if expected.startswith('refusal ') else bytes_of(expected)
                    self.assertEqual(told(smclp.canonical, text), expected_bytes, case)
                count += 1
        tree = smclp.Tree.of([(0, 'a', 1)])
        for case, (what, lent, answer) in cells('02-c.tsv', 3):
            self.assertIn(what, ('line', 'text'))
            if what == 'line':
                found = told(reading, bytes_of(lent))
            else:
                found = told(tree.resolve, bytes_of(lent))
                if found is smclp.SESSION:
                    found = 'session'
                elif isinstance(found, list):
                    found = ' '.join(map(str, ['nodes', *found]))
            self.assertEqual(found, answer, case)
            count += 1
        self.assertEqual((count, changed), (104 + 191 + 235, {}))


if __name__ == '__main__':
    unittest.main()
