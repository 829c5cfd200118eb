'''The decoder over the stand-in.'''

import importlib
import os
import re
import sys
import unittest
from unittest import mock

import captures
import frames
import plain
import sigrokdecode
from smclp import Decoder, clp, pd

RX, TX = 0, 1


def fed(decoder, capture, places, rxtx=RX):
    for byte, (ss, es) in zip(capture, places):
        decoder.decode(ss, es, ['FRAME', rxtx, (byte, True)])


def decoded(capture, places):
    '''What is shown of a whole capture.'''
    decoder = sigrokdecode.started(Decoder)
    fed(decoder, capture, places)
    decoder.end()
    return decoder.got


def in_tens(capture):
    '''What is shown where byte i takes the samples from 10 i to 10 i + 9: class, samples, longest text.'''
    places = [(10 * i, 10 * i + 9) for i in range(len(capture))]
    return [(name, ss, es, texts[0]) for ss, es, name, texts in decoded(capture, places)]


class Worked(unittest.TestCase):
    '''Short captures, worked out by hand.'''

    def test_good_line(self):
        self.assertEqual(in_tens(b'show -L 2 cpu* Name State==OK\n'), [
            ('line', 0, 289, 'show -L 2 cpu* Name State==OK'),
            ('verb', 0, 39, 'Verb: show'),
            ('option', 50, 69, 'Option: level'),
            ('argument', 80, 89, 'Argument: 2'),
            ('target', 100, 139, 'Target: cpu*'),
            ('property', 150, 189, 'Property: Name'),
            ('property', 200, 249, 'Property: State'),
            ('operator', 250, 269, 'Operator: =='),
            ('value', 270, 289, 'Value: OK'),
        ])

    def test_option_without_argument(self):
        self.assertEqual(in_tens(b'cd -x\r'), [('line', 0, 49, 'cd -x'), ('verb', 0, 19, 'Verb: cd'), ('option', 30, 49, 'Option: examine')])

    def test_join_inside_a_part(self):
        self.assertEqual(in_tens(b'cd /sys`\r\ntem1\n'), [('line', 0, 139, 'cd /system1'), ('verb', 0, 19, 'Verb: cd'), ('target', 30, 139, 'Target: /system1')])

    def test_join_between_parts(self):
        self.assertEqual(in_tens(b'cd`\n /`\ra1\n'), [('line', 0, 99, 'cd /a1'), ('verb', 0, 19, 'Verb: cd'), ('target', 50, 99, 'Target: /a1')])

    def test_escaped_backtick_joins_nothing(self):
        self.assertEqual(in_tens(b'cd ``\n')[:2], [('line', 0, 49, 'cd ``'), ('refusal', 30, 39, f'Refused as 12 at 3: {clp.REFUSALS[12]}')])

    def test_refusal_on_its_byte(self):
        self.assertEqual(in_tens(b'\r\nshow -level 02 a1\n')[1:], [
            ('line', 20, 189, 'show -level 02 a1'), ('refusal', 150, 159, f'Refused as 10 at 13: {clp.REFUSALS[10]}')])

    def test_refusal_after_a_join(self):
        self.assertEqual(in_tens(b'reset `\r\n"os1\n')[1:], [('refusal', 90, 99, f'Refused as 4 at 6: {clp.REFUSALS[4]}')])

    def test_refusal_at_the_lines_length(self):
        for end in captures.ENDS:
            self.assertEqual(in_tens(b'cd os' + end), [('line', 0, 49, 'cd os'), ('refusal', 50, 59, f'Refused as 12 at 5: {clp.REFUSALS[12]}')])

    def test_line_that_is_too_long(self):
        # the backtick and the end of line after 1,000 bytes vanish, so that byte 1,024 of the line is byte 1,026 of the capture
        self.assertEqual(in_tens(b'x' * 1000 + b'`\n' + b'y' * 100 + b'\ncd\n'), [
            ('line', 0, 10259, 'x' * 1000 + 'y' * 24), ('refusal', 10260, 10269, f'Refused as 1 at 1024: {clp.REFUSALS[1]}'),
            ('line', 11030, 11049, 'cd'), ('verb', 11030, 11049, 'Verb: cd')])

    def test_bytes_that_are_not_printed(self):
        self.assertEqual(in_tens(b'\x1b[A\x7f~\xff\n')[0], ('line', 0, 59, '\\x1B[A\\x7F~\\xFF'))

    def test_blank_lines(self):
        self.assertEqual(in_tens(b'\n  \r\n\r'), [('blank', 0, 9, 'Blank line'), ('blank', 10, 29, 'Blank line'), ('blank', 50, 59, 'Blank line')])

    def test_cut_ends(self):
        self.assertEqual(in_tens(b'exi'), [('cut', 0, 29, 'Cut line: exi')])
        self.assertEqual(in_tens(b'ex`\ni`'), [('cut', 0, 49, 'Cut line: exi')])
        self.assertEqual(in_tens(b'\n`')[1:], [('cut', 10, 19, 'Cut line')])
        self.assertEqual(in_tens(b'`\n'), [])
        self.assertEqual(in_tens(b''), [])


class Generated(unittest.TestCase):
    '''Thousands of lines: each annotation held to the records, its range to the capture's bytes.'''

    @classmethod
    def setUpClass(cls):
        cls.capture = captures.capture(1, 4000)
        cls.wanted = plain.annotations(cls.capture)
        places = frames.uneven(len(cls.capture), 1)
        firsts = {ss: offset for offset, (ss, es) in enumerate(places)}
        lasts = {es: offset for offset, (ss, es) in enumerate(places)}
        # samples as offsets in the capture; None where no frame begins or ends there
        cls.got = [(name, firsts.get(ss), lasts.get(es), texts[0]) for ss, es, name, texts in decoded(cls.capture, places)]

    def test_each_annotation(self):
        for number, (got, wanted) in enumerate(zip(self.got, self.wanted)):
            self.assertEqual(got, wanted, f'annotation {number}')
        self.assertEqual(len(self.got), len(self.wanted))

    def test_ranges_hold_the_bytes_that_are_shown(self):
        '''From its first byte to its last a part has its own bytes, joins apart.'''
        for name, first, last, text in self.got:
            if name in ('argument', 'target', 'property', 'operator', 'value'):
                own = re.sub(b'`(\r\n|\r|\n)', b'', self.capture[first:last + 1])
                self.assertEqual(f'{name.capitalize()}: {own.decode()}', text)

    def test_capture_has_all_there_is(self):
        '''Every class but the two that it can't have, each of them with a join inside where that can be, and every refusal that a capture can have.'''
        self.assertEqual({one[0] for one in self.wanted} | {'cut', 'message'}, {name for name, title in Decoder.annotations})
        joined = {name for name, first, last, text in self.wanted if re.search(b'`[\r\n]', self.capture[first:last])}
        self.assertEqual(joined, {'line', 'blank', 'verb', 'option', 'argument', 'target', 'property', 'operator', 'value'})
        numbers = [int(text.split()[2]) for name, first, last, text in self.wanted if name == 'refusal']
        self.assertEqual(set(numbers), set(range(1, 15)) - {3} | {20})
        self.assertGreater(len([one for one in self.wanted if one[0] == 'verb']), 1000)

    def test_other_seeds_and_ends(self):
        cuts = set()
        for seed in range(2, 60):
            capture = captures.capture(seed, 20)
            got = decoded(capture, [(offset, offset) for offset in range(len(capture))])
            self.assertEqual([(name, ss, es, texts[0]) for ss, es, name, texts in got], plain.annotations(capture), f'seed {seed}')
            cuts |= {texts[0] for ss, es, name, texts in got if name == 'cut'}
        self.assertLessEqual({'Cut line', 'Cut line: exi', 'Cut line: show', 'Cut line: cd ', 'Cut line: ' + 'x' * 1024}, cuts)


class Halfway(unittest.TestCase):
    '''A tap that joins at any byte: from the first trusted end of line on all is as in the whole capture.'''

    CAPTURE = (b'show -level 2 /system1/cpu* Name\r\nset . Location="rack 7, `\r\nunit 12" A==1\rreset "os1\n\nshow -level 02 cpu1\ncd os\n`\r\ncd ``\r'
        b'\nload -source http://host/a` b`\n -f firmware1\n   \r\nstop -w os1 State=Disabled\n\x00\xffcd\ncd -force ..`\n\r\rshow`\n  `')

    def test_every_offset(self):
        places = frames.uneven(len(self.CAPTURE), 2)
        whole = decoded(self.CAPTURE, places)
        compared = 0
        for offset in range(len(self.CAPTURE)):
            trusted = re.compile(b'[^`\r\n][\r\n]').search(self.CAPTURE, offset)
            since = places[trusted.end() - 1][0] if trusted else places[-1][1]
            after = [one for one in whole if one[0] > since]
            got = [one for one in decoded(self.CAPTURE[offset:], places[offset:]) if one[0] > since]
            self.assertEqual(got, after, f'from byte {offset}')
            compared += len(after)
        self.assertGreater(compared, 1000)


class Direction(unittest.TestCase):
    COMMANDS = b'cd /sys`\r\ntem1\r\nreset "os1\r\n\r\n'
    REPLIES = b'`\rshow "\x00`\n-> cd\nok\r`'

    def shown(self, direction, sides):
        '''What is shown of bytes that come from two sides in turn.'''
        decoder = sigrokdecode.started(Decoder, direction=direction)
        for i in range(max(len(self.COMMANDS), len(self.REPLIES))):
            for rxtx, data in sides:
                fed(decoder, data[i:i + 1], [(100 * i + 50 * rxtx, 100 * i + 50 * rxtx + 40)], rxtx)
        decoder.end()
        return decoder.got

    def test_the_other_side_changes_nothing(self):
        for direction, side, other in (('rx', RX, TX), ('tx', TX, RX)):
            alone = self.shown(direction, [(side, self.COMMANDS)])
            self.assertEqual([name for ss, es, name, texts in alone], ['line', 'verb', 'target', 'line', 'refusal', 'blank'])
            self.assertEqual(self.shown(direction, [(side, self.COMMANDS), (other, self.REPLIES)]), alone)
            self.assertEqual(self.shown(direction, [(other, self.COMMANDS)]), [])

    def test_rx_is_the_default(self):
        decoder = sigrokdecode.started(Decoder)
        fed(decoder, b'cd\n', [(0, 1), (1, 2), (2, 3)], TX)
        self.assertEqual(decoder.got, [])
        fed(decoder, b'cd\n', [(0, 1), (1, 2), (2, 3)], RX)
        self.assertEqual(len(decoder.got), 2)


class Packets(unittest.TestCase):
    '''What uart puts out beside good frames.'''

    def shown(self, *packets):
        decoder = sigrokdecode.started(Decoder)
        for i, (kind, value) in enumerate(packets):
            decoder.decode(10 * i, 10 * i + 9, [kind, RX, value])
        return [(name, ss, es, texts[0]) for ss, es, name, texts in decoder.got]

    def test_frames_alone_are_bytes(self):
        byte = (0x41, [[1, 0, 1]] * 8)
        self.assertEqual(self.shown(
            ('IDLE', 0), ('STARTBIT', 0), ('DATA', byte), ('PARITYBIT', 1), ('STOPBIT', 1), ('FRAME', (0x63, True)), ('PARITY ERROR', (0, 1)), ('FRAME', (0x64, True)),
            ('BREAK', 0), ('INVALID STOPBIT', 0), ('DATA', byte), ('FRAME', (0x0A, True)), ('BREAK', 0)), [('line', 50, 79, 'cd'), ('verb', 50, 79, 'Verb: cd')])

    def test_frame_with_an_error_is_a_byte(self):
        self.assertEqual(self.shown(('FRAME', (0x63, False)), ('FRAME', (0x64, True)), ('FRAME', (0x0A, False))), [('line', 0, 19, 'cd'), ('verb', 0, 19, 'Verb: cd')])

    def test_nine_bits_are_noise(self):
        for value in (0x100, 0x10A, 0x1FF):
            self.assertEqual(self.shown(('FRAME', (0x63, True)), ('FRAME', (value, True)), ('FRAME', (0x0A, True))), [
                ('line', 0, 19, 'c\\xFF'), ('refusal', 10, 19, f'Refused as 2 at 1: {clp.REFUSALS[2]}')])

    def test_start_bit_that_was_too_short_brings_no_byte(self):
        '''uart then repeats the byte before, which would be a blank line here.'''
        spike = (('INVALID STARTBIT', 1), ('FRAME', (0x0A, False)))
        line = (('STARTBIT', 0), ('FRAME', (0x63, True)), ('STARTBIT', 0), ('FRAME', (0x64, True)), ('STARTBIT', 0), ('FRAME', (0x0A, True)))
        self.assertEqual(self.shown(*line, *spike, *line), [
            ('line', 10, 39, 'cd'), ('verb', 10, 39, 'Verb: cd'), ('line', 90, 119, 'cd'), ('verb', 90, 119, 'Verb: cd')])
        self.assertEqual(self.shown(spike[0], *line), [('line', 20, 49, 'cd'), ('verb', 20, 49, 'Verb: cd')])
        self.assertEqual(self.shown(*spike, ('FRAME', (0x63, True)), ('FRAME', (0x64, True)), ('FRAME', (0x0A, True)))[0], ('line', 20, 39, 'cd'))


class Texts(unittest.TestCase):
    def test_they_fall(self):
        capture = captures.capture(1, 500)
        for ss, es, name, texts in decoded(capture, frames.uneven(len(capture), 3)):
            lengths = [len(text) for text in texts]
            self.assertEqual(lengths, sorted(set(lengths), reverse=True), texts)
            self.assertTrue(all(text.isprintable() for text in texts), texts)

    def test_parts(self):
        got = decoded(b'show -l 2 cpu1 A==b\n', [(i, i) for i in range(20)])
        self.assertEqual([texts for ss, es, name, texts in got], [
            ['show -l 2 cpu1 A==b'], ['Verb: show', 'show', 's'], ['Option: level', 'level', 'l'], ['Argument: 2', '2'], ['Target: cpu1', 'cpu1'],
            ['Property: A', 'A'], ['Operator: ==', '=='], ['Value: b', 'b']])

    def test_blank_and_cut(self):
        for capture, name, texts in (
                (b'\n', 'blank', ['Blank line', 'Blank', 'B']), (b'exi', 'cut', ['Cut line: exi', 'Cut line', 'Cut', 'C']), (b'`', 'cut', ['Cut line', 'Cut', 'C'])):
            self.assertEqual([one[2:] for one in decoded(capture, [(i, i) for i in range(len(capture))])], [(name, texts)])

    def test_refusals(self):
        for number in (*range(1, 15), 20):
            texts = pd.refusal_texts(clp.Refused(number, 1024))
            self.assertEqual(texts[0], f'Refused as {number} at 1024: {clp.REFUSALS[number]}')
            self.assertEqual(texts[2:], [f'Refused as {number}', f'R{number}'])
            self.assertTrue(f'Refused as {number}: {clp.REFUSALS[number]}'.startswith(texts[1]), texts[1])
        self.assertEqual(pd.refusal_texts(clp.Refused(1, 1024))[1], 'Refused as 1: the line has over 1,024 bytes after joining')
        self.assertEqual(pd.refusal_texts(clp.Refused(3, 0))[1], 'Refused as 3: the line\'s last byte is a backtick that escapes nothing')
        self.assertEqual(pd.refusal_texts(clp.Refused(6, 0))[1], 'Refused as 6: no such verb')
        self.assertEqual(pd.refusal_texts(clp.Refused(20, 3))[1], 'Refused as 20: the option there is known, but this verb can\'t have it')


class Missing(unittest.TestCase):
    '''Where there is no library.'''

    def shown(self, library):
        '''What a decoder that is imported anew shows of two lines, with a reset between.'''
        kept = {name: module for name, module in sys.modules.items() if name.split('.')[0] == 'smclp'}
        for name in kept:
            del sys.modules[name]
        try:
            with mock.patch.dict(os.environ, SMCLP_LIBRARY=library):
                decoder = sigrokdecode.started(importlib.import_module('smclp').Decoder)
                for first in (0, 100):
                    fed(decoder, b'cd\n', [(first, first + 9), (first + 10, first + 19), (first + 20, first + 29)])
                    decoder.end()
                    decoder.reset()
                    decoder.start()
                return decoder.got
        finally:
            for name in [name for name in sys.modules if name.split('.')[0] == 'smclp']:
                del sys.modules[name]
            sys.modules.update(kept)

    def test_message(self):
        for library in ('/nowhere/libsmclp.so.0', __file__):
            got = self.shown(library)
            self.assertEqual([one[:3] for one in got], [(0, 9, 'message'), (100, 109, 'message')])
            texts = got[0][3]
            self.assertIn(library, texts[0])
            for text in texts[:2]:
                self.assertIn('SMCLP_LIBRARY', text)
            lengths = [len(text) for text in texts]
            self.assertEqual(lengths, sorted(set(lengths), reverse=True))
            self.assertTrue(all(text.isprintable() for text in texts), texts)
            self.assertEqual(texts[-1], '!')

    def test_library_that_is_there(self):
        self.assertEqual([one[:3] for one in self.shown(os.environ['SMCLP_LIBRARY'])], [(0, 19, 'line'), (0, 19, 'verb'), (100, 119, 'line'), (100, 119, 'verb')])


class Reset(unittest.TestCase):
    def test_in_mid_line(self):
        capture = captures.capture(5, 30)
        places = frames.uneven(len(capture), 5)
        new = decoded(capture, places)
        for begun in (b'show "', b'cd `', b'cd\r', b'x' * 1100):
            decoder = sigrokdecode.started(Decoder)
            fed(decoder, begun, [(0, 0)] * len(begun))
            decoder.decode(0, 0, ['INVALID STARTBIT', RX, 1])
            decoder.reset()
            decoder.start()
            decoder.got.clear()
            fed(decoder, capture, places)
            decoder.end()
            self.assertEqual(decoder.got, new)

    def test_bytes_after_the_end_are_another_capture(self):
        for ends in (Decoder.end, Decoder.flush), (Decoder.flush, Decoder.end):
            decoder = sigrokdecode.started(Decoder)
            fed(decoder, b'exi', [(i, i) for i in range(3)])
            for end in ends:
                end(decoder)
            fed(decoder, b'cd\n', [(i, i) for i in range(3, 6)])
            self.assertEqual([one[:3] for one in decoder.got], [(0, 2, 'cut'), (3, 4, 'line'), (3, 4, 'verb')])


if __name__ == '__main__':
    unittest.main()
