'''What the decoder must show of a capture, got another way than the decoder gets it: the records from clp_list, a line in each call, with nothing between but
ctypes; the places of a line's bytes, and its terms, by plain code that asks the library nothing.'''

import ctypes
import os
import struct

from smclp import clp

GRAVE, CR, LF = b'`\r\n'
SPACE, QUOTE = b' "'
LINE_BYTES = 1024
READING_BYTES = 399
NONE = 2**64 - 1


class Answer(ctypes.Structure):
    _fields_ = [('number', ctypes.c_uint64), ('value', ctypes.c_uint64)]


class Joined(ctypes.Structure):
    _fields_ = [('number', ctypes.c_uint64), ('value', ctypes.c_uint64), ('used', ctypes.c_uint64), ('state', ctypes.c_uint64)]


library = ctypes.CDLL(os.environ['SMCLP_LIBRARY'])
library.clp_list.restype = Joined
library.clp_list.argtypes = [ctypes.c_uint64] + [ctypes.c_char_p, ctypes.c_size_t] * 3
library.clp_list_end.restype = Answer
library.clp_list_end.argtypes = [ctypes.c_uint64, ctypes.c_char_p, ctypes.c_size_t]


def records_of(capture):
    '''The records of each line, and of the cut at the end, where there is one.'''
    buffer, room = ctypes.create_string_buffer(LINE_BYTES), ctypes.create_string_buffer(READING_BYTES)
    state, found = 0, []
    while capture:
        answer = library.clp_list(state, buffer, LINE_BYTES, capture, len(capture), room, READING_BYTES)
        state, capture = answer.state, capture[answer.used:]
        if answer.value != NONE:
            found.append(room.raw[:answer.value])
    cut = library.clp_list_end(state, room, READING_BYTES).value
    return found + [room.raw[:cut]] * cut


def joined(capture):
    '''Where the bytes of each line stand in the capture, and last of them the byte that ended it; for the cut at the end, what there is of it.'''
    found, line, at = [], [], 0
    while at < len(capture):
        begun, after = at, at + 1
        if capture[at] == GRAVE:
            if after == len(capture):  # it waits
                return found + [line or [at]]
            at, after = after, after + 1
        if capture[at] in (CR, LF):
            after += capture[at:at + 2] == b'\r\n'
            if begun == at:
                found.append(line + [at])
                line = []
        else:
            line += range(begun, after)
        at = after
    return found + [line] * bool(line)


def terms(text):
    '''Where each term of a line begins and ends; no quote is open at its end.'''
    found, begun, quoted, at = [], None, False, 0
    while at < len(text):
        if text[at] == SPACE and not quoted:
            if begun is not None:
                found.append((begun, at))
            begun = None
        else:
            begun = at if begun is None else begun
            if text[at] == GRAVE and text[at + 1:at + 2] in [bytes([byte]) for byte in (b'`"' if quoted else b' `",=-/\\.()*')]:
                at += 1
            elif text[at] == QUOTE:
                quoted = not quoted
        at += 1
    return found + ([(begun, len(text))] if begun is not None else [])


def visible(text):
    return ''.join(chr(byte) if byte in range(0x20, 0x7F) else '\\x%02X' % byte for byte in text)


def parts(text, records):
    '''The parts that the records of a good line tell: class, beginning, end, name or own bytes.'''
    at, term = 0, iter(terms(text))
    while at < len(records):
        kind = records[at]
        if kind == 1:
            yield ('verb', *next(term), clp.VERBS[records[at + 1]])
            at += 2
        elif kind == 2:
            number, argument, length = struct.unpack_from('>BHH', records, at + 1)
            yield ('option', *next(term), clp.OPTIONS[number])
            if length:
                next(term)
                yield ('argument', argument, argument + length, visible(text[argument:argument + length]))
            at += 6
        elif kind == 3:
            target, length = struct.unpack_from('>HH', records, at + 1)
            yield ('target', target, target + length, visible(text[target:target + length]))
            at += 5
        else:
            name, name_length, operator, value, value_length = struct.unpack_from('>HHBHH', records, at + 1)
            yield ('property', name, name + name_length, visible(text[name:name + name_length]))
            if operator:
                yield ('operator', name + name_length, value, '=' * operator)
                yield ('value', value, value + value_length, visible(text[value:value + value_length]))
            at += 10


def paired(records, lines):
    if len(records) != len(lines):
        raise ValueError(f'the library gives {len(records)} lines, and plain joining {len(lines)}')
    return zip(records, lines)


def annotations(capture):
    '''What must be shown, in order: class, offsets in the capture of the first byte and the last, and the longest text.'''
    found = []
    for records, places in paired(records_of(capture), joined(capture)):
        if records[0] == 7:
            text = bytes(capture[place] for place in places[:LINE_BYTES])
            # a backtick that waits is no part of the text
            found.append(('cut', places[0], places[:LINE_BYTES][-1], 'Cut line' if text == b'`' else 'Cut line: ' + visible(text)))
            continue
        text = bytes(capture[place] for place in places[:-1])[:LINE_BYTES]
        whole = (places[0], places[:-1][:LINE_BYTES][-1] if text else places[0])
        if records[0] == 6:
            found.append(('blank', *whole, 'Blank line'))
            continue
        found.append(('line', *whole, visible(text)))
        if records[0] == 5:
            number, place = struct.unpack_from('>BH', records, 1)
            found.append(('refusal', places[place], places[place], f'Refused as {number} at {place}: {clp.REFUSALS[number]}'))
            continue
        for name, start, stop, own in parts(text, records):
            found.append((name, places[start], places[stop - 1], f'{name.capitalize()}: {own}'))
    return found
