"""Reads SM CLP command lines (DMTF DSP0214) with the proved library libsmclp.

A line is bytes, without its end of line; what is told of it are slices of it:

>>> line = read(b'show -level 2 /system1/cpu* Name')
>>> line.verb.name, line.text[line.target.at]
('show', b'/system1/cpu*')
>>> [(option.name, line.text[option.argument]) for option in line.options]
[('level', b'2')]
>>> [line.text[part.name] for part in line.properties]
[b'Name']

A line that is no command of the dialect is refused, with a number and a place in it:

>>> read(b'reset "os1')
Traceback (most recent call last):
    ...
smclp.Refused: refused as 4 at 6: the quote that opens there is not closed

A capture is read part by part, wherever it is cut into parts:

>>> for line in lines([b'cd /sys', b'tem1\\r\\nreset "os1\\r', b'\\n\\nexi']):
...     print(line)
<Line b'cd /system1': cd>
<Line b'reset "os1': refused as 4 at 6>
<Line b'': blank>
<Line b'exi': cut>

What a board answers in the keyword format is read and written too:

>>> reply = read_reply(b'status=0\\r\\nbegingroup=cpu\\r\\nName="a`"b"\\r\\nendgroup\\r\\nendoutput\\r\\n')
>>> [(reply.text[item.keyword], reply.value(item)) for item in reply.items]
[(b'status', b'0'), (b'Name', b'a"b')]
>>> write_reply([('status', b'0'), 'cpu', ('Name', b'a"b'), End.GROUP, End.OUTPUT])
b'status=0\\nbegingroup=cpu\\nName=a"b\\nendgroup\\nendoutput\\n'

Every answer is the library's: this module hands bytes over and names the numbers that come back. The library's header
clp.h says what each function answers. Bytes can be handed in as bytes, bytearray or memoryview.

The library is loaded on first use: the file that the variable SMCLP_LIBRARY names; where it is not set, the one that the
system's loader finds as libsmclp.so.0, or else the one in the lib folder of the prefix that this module is installed under.

Threads may call at once. A Joiner or a Placed belongs to one capture, and one thread at a time uses it.
"""

from __future__ import annotations

import ctypes
import enum
import functools
import operator
import os
import struct
import sysconfig
from typing import Callable, Generic, Iterable, Iterator, List, NamedTuple, Optional, Tuple, Type, TypeVar, Union

__all__ = [
    'OPERATORS',
    'OPTIONS',
    'REFUSALS',
    'SESSION',
    'VERBS',
    'End',
    'Entry',
    'Group',
    'Item',
    'Joiner',
    'LibraryMissing',
    'Line',
    'Option',
    'Part',
    'Placed',
    'Property',
    'Refused',
    'Reply',
    'Session',
    'Target',
    'Tree',
    'Verb',
    'canonical',
    'lines',
    'meant',
    'read',
    'read_reply',
    'records_text',
    'reply_value',
    'target',
    'terms',
    'write_reply',
]
__version__ = '0.1.0'

# ---- Names and words. The tests hold them to clp.h and to the two tables of refusals in README.md.

#: The name of each verb, by its number.
VERBS = {
    1: 'cd',
    2: 'create',
    3: 'delete',
    4: 'dump',
    5: 'exit',
    6: 'help',
    7: 'load',
    8: 'reset',
    9: 'set',
    10: 'show',
    11: 'start',
    12: 'stop',
    13: 'version',
}

#: The long name of each option, by its number.
OPTIONS = {
    1: 'all',
    2: 'destination',
    3: 'display',
    4: 'examine',
    5: 'force',
    6: 'help',
    7: 'keep',
    8: 'level',
    9: 'output',
    10: 'source',
    11: 'version',
    12: 'wait',
}

#: How a property's operator is written, by its number.
OPERATORS = {0: '', 1: '=', 2: '=='}

#: What to look at where a line or a reply is refused, by the refusal's number.
REFUSALS = {
    1: 'the line has over 1,024 bytes after joining: a missing end of line, or noise',
    2: 'the byte there is outside 20h to 7Eh: noise, a tab, a key that sends an escape sequence',
    3: "the line's last byte is a backtick that escapes nothing (only a line handed in directly; in a capture it would have "
    'joined)',
    4: 'the quote that opens there is not closed',
    5: 'the 65th term starts there',
    6: 'no such verb; upper or lower case makes no difference, a quote in it does',
    7: 'no such option; `-level=2` is one too: the argument is the next term',
    8: 'this option was given before, by its long or its short name, in whichever case',
    9: 'an option that takes an argument has none, or the next term starts with `-`',
    10: 'the argument is of its form up to there and no further: `02` for a number, a quote in a source; where nothing '
    'follows, more is wanted',
    11: 'an option after the target or a property: options come first',
    12: 'the target is a path up to there and no further: a segment is `.`, `..`, or letters and a number; nor is it '
    '`SESSION`, which stays in capitals; where nothing follows, more is wanted',
    13: 'the property is `name`, `name=value` or `name==value` up to there and no further: a bare `,` `(` `)` `=` or `"` '
    'inside a value wants quotes or a backtick; where nothing follows, more is wanted',
    14: 'the 33rd property starts there',
    15: 'a record of the lent tree is malformed, from that byte on',
    16: 'the default target, or the node asked for, is no node of the tree',
    17: '`..` at the root',
    18: "no child of that tag and number; a tag's letters have the case that the tree has",
    19: 'the lent room is too small; for joining, a bad state or a line buffer that is not of 1,024 bytes',
    20: "the option there is known, but this verb can't have it: `cd -force`",
    21: 'the line or record there is none of `keyword=value`, `begingroup=type`, `endgroup` and `endoutput`: a keyword or a '
    'type is no name, or something follows a closing quote; at 0 also a reply or text of over 65,535 bytes',
    22: '`endgroup`, and no group is open',
    23: '`begingroup`, and eight groups are open already',
    24: '`endoutput`, and a group is open',
    25: 'there is no `endoutput` before the end, or a quote is not closed',
}

# ---- Numbers of clp.h, under the names that it has for them without CLP_. The tests hold them to it.

_LINE_BYTES = 1024
_READING_BYTES = 399
_CANONICAL_BYTES = 1978
_TREE_NODES = 512
_NODE_BYTES = 22
_PATH_BYTES = 11264
_REPLY_BYTES = 65535
_REPLY_RECORDS_BYTES = 196579
_KIND_VERB = 1
_KIND_OPTION = 2
_KIND_TARGET = 3
_KIND_PROPERTY = 4
_KIND_REFUSAL = 5
_KIND_BLANK = 6
_KIND_CUT = 7
_KIND_NODE = 16
_KIND_ITEM = 64
_KIND_GROUP = 65
_KIND_END_GROUP = 66
_KIND_END_OUTPUT = 67
_STATE_HELD = 2047
_STATE_GRAVE = 2048
_STATE_LONG = 8192
_NONE = 2**64 - 1
_SESSION = 2**64 - 1

_TEXT_BYTES_EACH = 6  # clp_records_text: so many at most for each byte of records
_REPLY_RECORDS_EACH = 3  # clp_read_reply: so many at most for each byte of a reply
_LARGEST = ctypes.c_size_t(-1).value  # the largest number that can be handed over

# Records with their kind, as clp.h lays them out.
_VERB = struct.Struct('>BB')
_OPTION = struct.Struct('>BBHH')
_TARGET = struct.Struct('>BHH')
_PROPERTY = struct.Struct('>BHHBHH')
_REFUSAL = struct.Struct('>BBH')
_NODE = struct.Struct('>BHB16sH')
_ITEM = struct.Struct('>BHHHH')
_GROUP = struct.Struct('>BHH')

# What is lent to be written.
_LineBuffer = ctypes.c_char * _LINE_BYTES
_ReadingRoom = ctypes.c_char * _READING_BYTES
_NodeList = ctypes.c_uint16 * _TREE_NODES
_Start = ctypes.c_char * 0  # of a bytearray

_Lent = Union[bytes, bytearray, memoryview]
_Word = Union[bytes, str]  # of ASCII alone
_Place = TypeVar('_Place')
_Given = TypeVar('_Given')


class Refused(Exception):
    """A refusal: its number, its place, and in words what to look at there. Two are equal where number and place are.

    >>> refusal = Refused(4, 6)
    >>> refusal.number, refusal.place, refusal.words
    (4, 6, 'the quote that opens there is not closed')
    """

    def __init__(self, number: int, place: int) -> None:
        super().__init__(number, place)
        self.number = number
        self.place = place

    @property
    def words(self) -> str:
        """What to look at, as README.md's tables of refusals have it."""
        return REFUSALS[self.number]

    def __str__(self) -> str:
        return f'refused as {self.number} at {self.place}: {self.words}'

    def __eq__(self, other: object) -> bool:
        if not isinstance(other, Refused):
            return NotImplemented
        return self.args == other.args

    def __hash__(self) -> int:
        return hash(self.args)


class LibraryMissing(OSError):
    """The library libsmclp can't be loaded; the message says what was looked for, and what to do."""


# ---- The library


class _Answer(ctypes.Structure):
    _fields_ = [(name, ctypes.c_uint64) for name in ('number', 'value')]
    number: int
    value: int


class _Joined(ctypes.Structure):
    _fields_ = [(name, ctypes.c_uint64) for name in ('number', 'value', 'used', 'state')]
    number: int
    value: int
    used: int
    state: int


class _Term(ctypes.Structure):
    _fields_ = [(name, ctypes.c_uint64) for name in ('number', 'value', 'length')]
    number: int
    value: int
    length: int


class _Part(ctypes.Structure):
    _fields_ = [(name, ctypes.c_uint64) for name in ('position', 'length')]
    position: int
    length: int


class _Library:
    """The functions of clp.h that are used here, without their clp_."""

    def __init__(self, loaded: ctypes.CDLL) -> None:
        state, lent, length = ctypes.c_uint64, ctypes.c_void_p, ctypes.c_size_t

        def function(name: str, answer: Type[_Given], *arguments: object) -> Callable[..., _Given]:
            found = getattr(loaded, name)
            found.restype = answer
            found.argtypes = arguments
            typed: Callable[..., _Given] = found
            return typed

        self.join = function('clp_join', _Joined, state, lent, length, lent, length)
        self.end = function('clp_end', _Answer, state)
        self.read = function('clp_read', _Answer, lent, length, lent, length)
        self.target = function('clp_target', _Part, lent, length)
        self.next_term = function('clp_next_term', _Term, lent, length, length)
        self.canonical = function('clp_canonical', _Answer, lent, length, lent, length)
        self.meant = function('clp_meant', _Answer, lent, length, lent, length)
        self.check_tree = function('clp_check_tree', _Answer, lent, length)
        self.resolve = function('clp_resolve', _Answer, lent, length, lent, length, length, lent, length)
        self.full_path = function('clp_full_path', _Answer, lent, length, length, lent, length)
        self.records_text = function('clp_records_text', _Answer, lent, length, lent, length)
        self.read_reply = function('clp_read_reply', _Answer, lent, length, lent, length)
        self.write_reply = function('clp_write_reply', _Answer, lent, length, lent, length, lent, length)
        self.reply_value = function('clp_reply_value', _Answer, lent, length, lent, length)


_SONAME = 'libsmclp.so.0'
_VARIABLE = 'SMCLP_LIBRARY'


def _candidates() -> List[str]:
    """What is tried in turn: a path, or the name that the loader looks for."""
    named = os.environ.get(_VARIABLE)
    if named:
        return [os.path.abspath(named)]
    above = os.path.dirname(os.path.abspath(__file__))
    while os.path.basename(above) not in ('', 'lib', 'lib64', 'share'):
        above = os.path.dirname(above)
    if not os.path.basename(above):  # the root: not installed
        return [_SONAME]
    prefix, multiarch = os.path.dirname(above), sysconfig.get_config_var('MULTIARCH')
    folders = ['lib', 'lib64'] + ([f'lib/{multiarch}'] if multiarch else [])
    return [_SONAME] + [os.path.join(prefix, folder, _SONAME) for folder in folders]


@functools.lru_cache(maxsize=None)
def _library() -> _Library:
    """The library, loaded on the first call."""
    failures = []
    for candidate in _candidates():
        try:
            return _Library(ctypes.CDLL(candidate))
        except (OSError, AttributeError) as failure:
            failures.append(f'  {candidate}: {failure}')
    tried = '\n'.join(failures)
    raise LibraryMissing(
        f'the library libsmclp was not found. Tried:\n{tried}\n'
        f'Install it (packaging/install, with a PREFIX that the loader knows, then ldconfig), or set {_VARIABLE} to the '
        f'path of {_SONAME}.'
    )


def _bytes(lent: _Lent, what: str) -> bytes:
    """What is lent, as bytes that nobody writes to while the library reads them."""
    if isinstance(lent, bytes):
        return lent
    if isinstance(lent, (bytearray, memoryview)):
        return bytes(lent)
    raise TypeError(f'{what} is bytes, bytearray or memoryview, not {type(lent).__name__}')


def _word(word: _Word, what: str) -> bytes:
    """A word's bytes; of text those that ASCII has for it."""
    return word.encode('ascii') if isinstance(word, str) else _bytes(word, what)


def _number(number: int, what: str) -> int:
    """A number that can be handed over; one that is too large for that stays larger than any that the library knows."""
    number = operator.index(number)
    if number < 0:
        raise ValueError(f'{what} is 0 or more, not {number}')
    return min(number, _LARGEST)


def _written(function: Callable[..., _Answer], room_bytes: int, *lent: object) -> bytes:
    """What a function writes into a room of so many bytes, which is lent to it after the rest."""
    room = bytearray(room_bytes)
    answer = function(*lent, _Start.from_buffer(room), room_bytes)
    if answer.number:
        raise Refused(answer.number, answer.value)
    return bytes(room[: answer.value])


# ---- A line and its parts


class Verb(NamedTuple):
    """A line's verb: its number, its name, and where it stands."""

    number: int
    name: str
    at: slice


class Option(NamedTuple):
    """An option: its number, its long name, where it stands, and its argument, None where it has none."""

    number: int
    name: str
    at: slice
    argument: Optional[slice]


class Target(NamedTuple):
    """A line's target: where it stands."""

    at: slice


class Property(NamedTuple):
    """A property, or a topic of help: its name; its operator ('', '=' or '=='), where that stands, and its value. The last
    two are None for a mere name."""

    name: slice
    operator: str
    sign: Optional[slice]
    value: Optional[slice]


Part = Union[Verb, Option, Target, Property]


class Line:
    """A line and what the library says of it. Two are equal where their text and their records are.

    >>> line = read(b'set -force /system1 Name="a b"')
    >>> line.parts[0], line.parts[1]
    (Verb(number=9, name='set', at=slice(0, 3, None)), Option(number=5, name='force', at=slice(4, 10, None), argument=None))
    >>> line.target
    Target(at=slice(11, 19, None))
    >>> line.properties
    (Property(name=slice(20, 24, None), operator='=', sign=slice(24, 25, None), value=slice(25, 30, None)),)
    >>> line.blank, line.cut, line.refusal
    (False, False, None)
    """

    __slots__ = ('_text', '_records', '_parts')

    def __init__(self, text: bytes, records: bytes) -> None:
        self._text = text
        self._records = records
        self._parts: Optional[Tuple[Part, ...]] = None

    @property
    def text(self) -> bytes:
        """The line's bytes after joining; of one that is too long its first 1,024, of one that is cut what there is."""
        return self._text

    @property
    def records(self) -> bytes:
        """The records of its reading, as clp.h lays them out; a refusal and a cut are records too."""
        return self._records

    @property
    def refusal(self) -> Optional[Refused]:
        """Why the line is refused, None where it is not."""
        if self._records[0] != _KIND_REFUSAL:
            return None
        _, number, place = _REFUSAL.unpack(self._records)
        return Refused(number, place)

    @property
    def blank(self) -> bool:
        """Whether the line has no terms."""
        return self._records[0] == _KIND_BLANK

    @property
    def cut(self) -> bool:
        """Whether the capture ends inside the line."""
        return self._records[0] == _KIND_CUT

    @property
    def parts(self) -> Tuple[Part, ...]:
        """The verb, the options, the target and the properties, as they stand in the line; empty where it is refused,
        blank or cut."""
        if self._parts is None:
            self._parts = tuple(_parts(self._text, self._records))
        return self._parts

    @property
    def verb(self) -> Optional[Verb]:
        """The verb, None where there are no parts."""
        for part in self.parts:
            if isinstance(part, Verb):
                return part
        return None

    @property
    def options(self) -> Tuple[Option, ...]:
        """The options in the line's order."""
        return tuple(part for part in self.parts if isinstance(part, Option))

    @property
    def target(self) -> Optional[Target]:
        """The target, None where there is none."""
        for part in self.parts:
            if isinstance(part, Target):
                return part
        return None

    @property
    def properties(self) -> Tuple[Property, ...]:
        """The properties in the line's order; with help these are topics."""
        return tuple(part for part in self.parts if isinstance(part, Property))

    def __eq__(self, other: object) -> bool:
        if not isinstance(other, Line):
            return NotImplemented
        return self._text == other._text and self._records == other._records

    def __hash__(self) -> int:
        return hash((self._text, self._records))

    def __repr__(self) -> str:
        refusal = self.refusal
        if refusal is not None:
            what = f'refused as {refusal.number} at {refusal.place}'
        elif self.blank:
            what = 'blank'
        elif self.cut:
            what = 'cut'
        else:
            what = VERBS[self._records[1]]
        return f'<Line {self._text!r}: {what}>'


def _parts(text: bytes, records: bytes) -> Iterator[Part]:
    """The parts that a line's records tell. The verb and the options stand in its first terms, the others where their
    records say."""
    next_term = _library().next_term
    at, i = 0, 0  # where the next term is looked for; the next record
    while i < len(records):
        kind = records[i]
        if kind == _KIND_VERB:
            _, number = _VERB.unpack_from(records, i)
            term = next_term(text, len(text), at)
            at = term.value + term.length
            yield Verb(number, VERBS[number], slice(term.value, at))
            i += _VERB.size
        elif kind == _KIND_OPTION:
            _, number, position, length = _OPTION.unpack_from(records, i)
            term = next_term(text, len(text), at)
            at = position + length  # an absent argument stands after the option
            argument = slice(position, at) if length else None
            yield Option(number, OPTIONS[number], slice(term.value, term.value + term.length), argument)
            i += _OPTION.size
        elif kind == _KIND_TARGET:
            _, position, length = _TARGET.unpack_from(records, i)
            yield Target(slice(position, position + length))
            i += _TARGET.size
        elif kind == _KIND_PROPERTY:
            _, position, length, number, value, value_length = _PROPERTY.unpack_from(records, i)
            name = slice(position, position + length)
            if number:
                yield Property(name, OPERATORS[number], slice(name.stop, value), slice(value, value + value_length))
            else:
                yield Property(name, OPERATORS[number], None, None)
            i += _PROPERTY.size
        else:  # refused, blank or cut
            return


def read(line: _Lent) -> Line:
    """Reads a line; raises Refused where it is refused.

    >>> read(b'reset /system1').verb
    Verb(number=8, name='reset', at=slice(0, 5, None))
    """
    text = _bytes(line, 'a line')
    return Line(text, _written(_library().read, _READING_BYTES, text, len(text)))


def terms(line: _Lent) -> Iterator[slice]:
    """Where each term of a line stands; raises Refused where the line can't be parted into terms (1 to 5).

    >>> list(terms(b'cd  "a b" c'))
    [slice(0, 2, None), slice(4, 9, None), slice(10, 11, None)]
    """
    text = _bytes(line, 'a line')
    next_term = _library().next_term
    found: List[slice] = []
    at = 0
    while True:
        term = next_term(text, len(text), at)
        if term.number:
            raise Refused(term.number, term.value)
        if term.value == _NONE:
            return iter(found)
        at = term.value + term.length
        found.append(slice(term.value, at))


def target(line: _Lent) -> Optional[slice]:
    """Where a line's target stands, None where there is none or the line is refused.

    >>> target(b'cd /system1'), target(b'cd')
    (slice(3, 11, None), None)
    """
    text = _bytes(line, 'a line')
    part = _library().target(text, len(text))
    return slice(part.position, part.position + part.length) if part.length else None


def canonical(line: _Lent) -> bytes:
    r"""The canonical writing of a line, one for all lines that are the same command; raises Refused where it is refused.

    >>> canonical(rb'SHOW   -l ALL \system1 Name')
    b'show -level all /system1 Name'
    """
    text = _bytes(line, 'a line')
    return _written(_library().canonical, _CANONICAL_BYTES, text, len(text))


def meant(text: _Lent) -> bytes:
    """The bytes that a value, an argument or a term stands for: without its quote marks and the backticks that escape.

    >>> meant(b'"a b"'), meant(b'a` b')
    (b'a b', b'a b')
    """
    lent = _bytes(text, 'a text')
    return _written(_library().meant, len(lent), lent, len(lent))


def records_text(records: _Lent) -> bytes:
    """Records as the program clplist prints them; raises Refused (15) where they are none.

    >>> records_text(read(b'cd /system1').records)
    b'verb 1\\ntarget 3 8\\n'
    """
    lent = _bytes(records, 'a list of records')
    return _written(_library().records_text, _TEXT_BYTES_EACH * len(lent), lent, len(lent))


# ---- From bytes to lines


class _Joining:
    """A joiner's state and its line buffer, and the lines that come of them."""

    def __init__(self) -> None:
        self._library = _library()
        self._state = 0
        self._buffer = _LineBuffer()
        self._room = _ReadingRoom()

    def _line(self, answer: _Joined) -> Line:
        """The line that has ended. For one that is too long the value is its place, and its text ends there too."""
        number = answer.number
        value = length = answer.value
        if not number:
            reading = self._library.read(self._buffer, length, self._room, _READING_BYTES)
            number, value = reading.number, reading.value
        records = _REFUSAL.pack(_KIND_REFUSAL, number, value) if number else self._room.raw[:value]
        return Line(self._buffer.raw[:length], records)

    def _cut(self) -> Optional[Line]:
        """The line that the capture's end cuts. What comes next is another capture."""
        state, self._state = self._state, 0
        if not self._library.end(state).value:
            return None
        return Line(self._buffer.raw[: state & _STATE_HELD], bytes((_KIND_CUT,)))


class Joiner(_Joining):
    """Joins the parts of one capture to lines, as they come from a live tap.

    >>> joiner = Joiner()
    >>> list(joiner.feed(b'cd /system1`'))
    []
    >>> list(joiner.feed(b'\\n/cpu1\\nshow'))
    [<Line b'cd /system1/cpu1': cd>]
    >>> joiner.end()
    <Line b'show': cut>
    """

    def feed(self, part: _Lent) -> Iterator[Line]:
        """The lines that end in the next part. The whole part is used at once, whatever becomes of the iterator."""
        return iter(list(self._each(_bytes(part, 'a part'))))

    def end(self) -> Optional[Line]:
        """The capture's end: the line that it cuts, or None. The joiner is as new then."""
        return self._cut()

    def _each(self, part: bytes) -> Iterator[Line]:
        join, buffer = self._library.join, self._buffer
        at, end = 0, len(part)
        start = 0  # the part's address, asked for where a first call has not used it all
        while at < end:
            answer = join(self._state, buffer, _LINE_BYTES, start + at if start else part, end - at)
            self._state = answer.state
            at += answer.used
            if at < end and not start:
                start = ctypes.cast(ctypes.c_char_p(part), ctypes.c_void_p).value or 0
            if answer.value != _NONE:
                yield self._line(answer)


def lines(parts: Iterable[_Lent]) -> Iterator[Line]:
    """The lines of a capture that comes in parts; a capture that ends inside a line gives a last one that is cut.

    >>> import io
    >>> [line.text for line in lines(io.BytesIO(b'cd\\nshow\\n'))]
    [b'cd', b'show']
    """
    joiner = Joiner()
    for part in parts:
        yield from joiner._each(_bytes(part, 'a part of a capture'))
    last = joiner.end()
    if last is not None:
        yield last


class Placed(_Joining, Generic[_Place]):
    """Joins one capture byte by byte, with a place for each: an offset, a time, a pair of sample numbers.

    >>> placed: Placed[int] = Placed()
    >>> for offset, byte in enumerate(b'cd a`\\r\\n1\\r\\n'):
    ...     ended = placed.join(byte, offset)
    ...     if ended:
    ...         print(ended)
    (<Line b'cd a1': cd>, [0, 1, 2, 3, 7, 8])
    """

    def __init__(self) -> None:
        super().__init__()
        self._places: List[_Place] = []  # of the bytes that the buffer holds, and of the first too many
        self._fresh: List[_Place] = []  # of a backtick that waits for the next byte, and is not held yet

    def join(self, byte: int, place: _Place) -> Optional[Tuple[Line, List[_Place]]]:
        """Joins a byte that stands at a place. Where it ends a line: that line, and the place of each byte of its text and of
        the byte that ended it. For a line that is too long the last place is that of its first byte too many."""
        before = self._state
        answer = self._library.join(before, self._buffer, _LINE_BYTES, bytes((byte,)), 1)
        state = self._state = answer.state
        fresh = self._fresh
        fresh.append(place)
        more = max((state & _STATE_HELD) - (before & _STATE_HELD), 0)
        self._places += fresh[:more]
        if state & _STATE_LONG > before & _STATE_LONG:
            self._places.append(fresh[more])
        if not state & _STATE_GRAVE:
            fresh.clear()
        if answer.value == _NONE:
            return None
        if not answer.number:
            self._places.append(place)
        places, self._places = self._places, []
        return self._line(answer), places

    def end(self) -> Optional[Tuple[Line, List[_Place]]]:
        """The capture's end: the line that it cuts with the places of its text, or None. The joiner is as new then."""
        places, self._places, self._fresh = self._places, [], []
        line = self._cut()
        return None if line is None else (line, places)


# ---- The tree


class Session(enum.Enum):
    """What a target addresses that is no instance of a tree: SESSION alone."""

    SESSION = 'SESSION'

    def __repr__(self) -> str:
        return self.value


SESSION = Session.SESSION


class Tree:
    """A tree of managed elements, in which targets are resolved: node 0 is its root, and node i its record i, counted from
    1. Raises Refused (15) where a record is malformed.

    >>> tree = Tree.of([(0, 'system', 1), (1, 'cpu', 1), (1, 'cpu', 2)])
    >>> tree.resolve(b'/system1/cpu*')
    [2, 3]
    >>> tree.resolve(b'../cpu2', default=2), tree.full_path(3), tree.resolve(b'SESSION')
    ([3], b'/system1/cpu2', SESSION)
    """

    def __init__(self, records: _Lent) -> None:
        self._records = _bytes(records, 'a tree')
        answer = _library().check_tree(self._records, len(self._records))
        if answer.number:
            raise Refused(answer.number, answer.value)

    @classmethod
    def of(cls, nodes: Iterable[Tuple[int, _Word, int]]) -> Tree:
        """The tree of these nodes, each told by its parent's node number, its tag and its number. Raises ValueError for one
        that does not fit a record."""
        records: List[bytes] = []
        for parent, tag, number in nodes:
            letters = _word(tag, 'a tag')
            fields = _number(parent, 'a parent'), len(letters), letters, _number(number, "a node's number")
            if fields[0] > 0xFFFF or fields[1] > 16 or fields[3] > 0xFFFF:
                raise ValueError(f'node {len(records) + 1} does not fit a record: {(parent, tag, number)}')
            records.append(_NODE.pack(_KIND_NODE, *fields))
        return cls(b''.join(records))

    @property
    def records(self) -> bytes:
        """The tree's records, as clp.h lays them out."""
        return self._records

    def resolve(self, target: _Lent, default: int = 0) -> Union[List[int], Session]:
        """The nodes that a target addresses from a default target, in record order, or SESSION. Raises Refused (12, 16, 17
        or 18)."""
        text, node = _bytes(target, 'a target'), _number(default, 'a node')
        found = _NodeList()
        answer = _library().resolve(text, len(text), self._records, len(self._records), node, found, _TREE_NODES)
        if answer.number:
            raise Refused(answer.number, answer.value)
        return SESSION if answer.value == _SESSION else found[: answer.value]

    def full_path(self, node: int) -> bytes:
        """A node's path from the root, whose own is '/'. Raises Refused (16)."""
        lent = self._records, len(self._records), _number(node, 'a node')
        return _written(_library().full_path, _PATH_BYTES, *lent)


# ---- Replies


class Item(NamedTuple):
    """An item of a reply: where its keyword and its value stand, the value as the reply has it, quotes and backticks
    included."""

    keyword: slice
    value: slice


class Group(NamedTuple):
    """A group of a reply opens: where its type stands."""

    type: slice


class End(enum.Enum):
    """What ends in a reply: the group that was opened last, or the whole."""

    GROUP = 'endgroup'
    OUTPUT = 'endoutput'


Entry = Union[Item, Group, End]


class Reply:
    """A board's reply and what the library says of it. Two are equal where their text and their records are.

    >>> reply = read_reply(b'begingroup=cpu\\nName="a b"\\nendgroup\\nendoutput')
    >>> for entry in reply.entries:
    ...     print(entry)
    Group(type=slice(11, 14, None))
    Item(keyword=slice(15, 19, None), value=slice(20, 25, None))
    End.GROUP
    End.OUTPUT
    >>> reply.text[reply.items[0].value], reply.value(reply.items[0])
    (b'"a b"', b'a b')
    """

    __slots__ = ('_text', '_records', '_entries')

    def __init__(self, text: bytes, records: bytes) -> None:
        self._text = text
        self._records = records
        self._entries: Optional[Tuple[Entry, ...]] = None

    @property
    def text(self) -> bytes:
        """The reply's bytes, with what follows its end."""
        return self._text

    @property
    def records(self) -> bytes:
        """The records of its reading, as clp.h lays them out."""
        return self._records

    @property
    def entries(self) -> Tuple[Entry, ...]:
        """The items, groups and ends, as they stand in the reply; the last is End.OUTPUT."""
        if self._entries is None:
            self._entries = tuple(_entries(self._records))
        return self._entries

    @property
    def items(self) -> Tuple[Item, ...]:
        """The items in the reply's order, whichever groups they stand in."""
        return tuple(entry for entry in self.entries if isinstance(entry, Item))

    def value(self, item: Item) -> bytes:
        """The bytes that the value of an item of this reply stands for."""
        return reply_value(self._text[item.value])

    def __eq__(self, other: object) -> bool:
        if not isinstance(other, Reply):
            return NotImplemented
        return self._text == other._text and self._records == other._records

    def __hash__(self) -> int:
        return hash((self._text, self._records))

    def __repr__(self) -> str:
        count = len(self.items)
        return f'<Reply of {len(self._text)} bytes: {count} item{"s" * (count != 1)}>'


def _entries(records: bytes) -> Iterator[Entry]:
    """The entries that a reply's records tell."""
    i = 0
    while i < len(records):
        kind = records[i]
        if kind == _KIND_ITEM:
            _, position, length, value, value_length = _ITEM.unpack_from(records, i)
            yield Item(slice(position, position + length), slice(value, value + value_length))
            i += _ITEM.size
        elif kind == _KIND_GROUP:
            _, position, length = _GROUP.unpack_from(records, i)
            yield Group(slice(position, position + length))
            i += _GROUP.size
        else:
            yield End.GROUP if kind == _KIND_END_GROUP else End.OUTPUT
            i += 1


def read_reply(reply: _Lent) -> Reply:
    """Reads a board's reply in the keyword format; raises Refused (21 to 25) where it is refused.

    >>> read_reply(b'status=0\\nendoutput\\n')
    <Reply of 19 bytes: 1 item>
    >>> read_reply(b'status=0\\nendgroup\\n')
    Traceback (most recent call last):
        ...
    smclp.Refused: refused as 22 at 9: `endgroup`, and no group is open
    """
    text = _bytes(reply, 'a reply')
    room = min(_REPLY_RECORDS_EACH * len(text), _REPLY_RECORDS_BYTES)
    return Reply(text, _written(_library().read_reply, room, text, len(text)))


def write_reply(entries: Iterable[Union[Tuple[_Word, _Lent], _Word, End]]) -> bytes:
    """The reply of these entries, up to the first End.OUTPUT: a pair of keyword and value for an item, a type alone for a
    group, End.GROUP for a group's end. A value is the bytes that are meant, and is put in quotes where it has to be. Raises
    Refused (21 to 25); its place counts 9 for each item before it, 5 for a group and 1 for an end.

    >>> write_reply([('Name', b'two\\nlines'), End.OUTPUT])
    b'Name="two\\nlines"\\nendoutput\\n'
    >>> write_reply([('status', b'0'), End.GROUP, End.OUTPUT])
    Traceback (most recent call last):
        ...
    smclp.Refused: refused as 22 at 9: `endgroup`, and no group is open
    """
    text, records = bytearray(), bytearray()
    for entry in entries:
        if isinstance(entry, End):
            records.append(_KIND_END_GROUP if entry is End.GROUP else _KIND_END_OUTPUT)
        elif isinstance(entry, tuple):
            keyword, value = entry
            fields = _put(text, _word(keyword, 'a keyword')) + _put(text, _bytes(value, 'a value'))
            records += _ITEM.pack(_KIND_ITEM, *fields)
        else:
            records += _GROUP.pack(_KIND_GROUP, *_put(text, _word(entry, "a group's type")))
    lent = bytes(records), len(records), bytes(text), len(text)
    return _written(_library().write_reply, _REPLY_BYTES, *lent)


def _put(text: bytearray, part: bytes) -> Tuple[int, int]:
    """Adds a part to a text, and tells its position and length there. Where the text is too long they need only fit a
    record."""
    position = len(text)
    text += part
    return min(position, _REPLY_BYTES), min(len(part), _REPLY_BYTES)


def reply_value(raw: _Lent) -> bytes:
    """The bytes that a value stands for, as a reply has it: a quoted one without its quotes and the backticks that escape,
    any other as it is. Raises Refused (21) where it begins with a quote and is no quoted value.

    >>> reply_value(b'"a`"b"'), reply_value(b'a"b')
    (b'a"b', b'a"b')
    """
    lent = _bytes(raw, 'a value')
    return _written(_library().reply_value, len(lent), lent, len(lent))
