"""Holds the lines of a long capture to what the independent reader lists of it: million.py CAPTURE LISTED LINES

CAPTURE is read in parts of uneven lengths. LISTED is what clplist_rs prints for it; it is compared, byte by byte, with what
the fields of each line say. LINES is how many lines end in it; one more is cut. Every tenth line is also put through the
other functions.
"""

from __future__ import annotations

import itertools
import sys
import time
from typing import BinaryIO, Iterator, List, Optional, Tuple

import smclp

# Lengths of parts, in turn: some end in the middle of a line, a join or a CR LF, some hold thousands of lines.
LENGTHS = (1, 2, 3, 5, 61, 1024, 4096, 65536, 0, 7, 999_983)


def parts(capture: BinaryIO) -> Iterator[bytes]:
    for length in itertools.cycle(LENGTHS):
        part = capture.read(length)
        if length and not part:
            return
        yield part


def listed(line: smclp.Line) -> bytes:
    """A line as clplist prints it, from the line's own fields."""
    if line.refusal is not None:
        return b'refusal %d %d\n' % (line.refusal.number, line.refusal.place)
    if line.blank:
        return b'blank\n'
    if line.cut:
        return b'cut\n'
    return b''.join(map(listed_part, line.parts))


def listed_part(part: smclp.Part) -> bytes:
    """One part; an argument or a value that is absent stands after its term, with length 0."""
    if isinstance(part, smclp.Verb):
        return b'verb %d\n' % part.number
    if isinstance(part, smclp.Option):
        return b'option %d %s\n' % (part.number, numbers(part.argument or slice(part.at.stop, part.at.stop)))
    if isinstance(part, smclp.Target):
        return b'target %s\n' % numbers(part.at)
    value = part.value or slice(part.name.stop, part.name.stop)
    return b'property %s %d %s\n' % (numbers(part.name), len(part.operator), numbers(value))


def numbers(at: slice) -> bytes:
    return b'%d %d' % (at.start, at.stop - at.start)


def spans(line: smclp.Line) -> Iterator[slice]:
    """The terms of an accepted line, by its parts."""
    for part in line.parts:
        if isinstance(part, smclp.Property):
            yield slice(part.name.start, (part.value or part.name).stop)
        else:
            yield part.at
            if isinstance(part, smclp.Option) and part.argument is not None:
                yield part.argument


def is_named(line: smclp.Line, part: smclp.Part) -> bool:
    """Whether the bytes where a part stands are what it is called."""
    if isinstance(part, smclp.Verb):
        return line.text[part.at].lower() == part.name.encode()
    if isinstance(part, smclp.Option):
        return line.text[part.at].startswith(b'-')
    if isinstance(part, smclp.Property) and part.sign is not None:
        return line.text[part.sign] == part.operator.encode()
    return True


def shape(line: smclp.Line) -> List[Tuple[type, Optional[int]]]:
    """The kinds of a line's parts, with the numbers of the verb and the options."""
    return [(type(part), getattr(part, 'number', None)) for part in line.parts]


def contradicts(line: smclp.Line) -> Optional[str]:
    """The function that says otherwise of a line than the line itself, None where all agree."""
    if line.refusal is not None:
        try:
            again: object = smclp.read(line.text)
        except smclp.Refused as refusal:
            again = refusal
        # of a line that is too long the text is only its beginning
        return None if again == line.refusal or line.refusal.number == 1 else 'read'
    if smclp.read(line.text) != line:
        return 'read'
    if list(smclp.terms(line.text)) != list(spans(line)) or not all(is_named(line, part) for part in line.parts):
        return 'terms'
    if smclp.target(line.text) != (line.target and line.target.at):
        return 'target'
    writing = smclp.canonical(line.text)
    if len(writing) <= 1024 and (shape(smclp.read(writing)) != shape(line) or smclp.canonical(writing) != writing):
        return 'canonical'
    return None


def main(capture_name: str, listed_name: str, count: int) -> int:
    began = time.monotonic()
    found = again = at = 0
    was_cut = False
    with open(capture_name, 'rb') as capture, open(listed_name, 'rb') as expected:
        for line in smclp.lines(parts(capture)):
            text = listed(line)
            wanted = expected.read(len(text))
            if text != wanted:
                print(f'million: line {found + 1} differs, at byte {at} of the listing: {line!r}')
                print(f'  here  {text!r}\n  there {wanted!r}')
                return 1
            at += len(text)
            was_cut = line.cut
            found += not was_cut
            if found % 10 == 0 and not was_cut:
                what = contradicts(line)
                if what is not None:
                    print(f'million: line {found}: {what} says otherwise of {line!r}')
                    return 1
                again += 1
        rest = expected.read(1)
    if rest or not was_cut or found != count:
        print(f'million: {found} lines of {count} have ended; cut at the end: {was_cut}; left of the listing: {rest!r}')
        return 1
    seconds = time.monotonic() - began
    print(f'million: {found} lines and a cut end are listed as by the independent reader, {again} read again ({seconds:.1f} s)')
    return 0


if __name__ == '__main__':
    sys.exit(main(sys.argv[1], sys.argv[2], int(sys.argv[3])))
