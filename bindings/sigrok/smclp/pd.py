'''The decoder: bytes from uart in, annotations out. Which bytes are a line, and what they are, libsmclp says through clp.py: that is the Python module
smclp.py under another name, for sigrok imports this folder as smclp.'''

import re

import sigrokdecode as srd

from . import clp

# The rows, and the classes of annotations in each. A class's number is its place among all of them.
ROWS = (
    ('lines', 'Lines', (('line', 'Line'), ('blank', 'Blank line'), ('cut', 'Cut line'))),
    ('parts', 'Parts', (('verb', 'Verb'), ('option', 'Option'), ('argument', 'Argument'), ('target', 'Target'), ('property', 'Property'),
        ('operator', 'Operator'), ('value', 'Value'))),
    ('refusals', 'Refusals', (('refusal', 'Refusal'),)),
    ('messages', 'Messages', (('message', 'Message'),)),
)
CLASSES = tuple(one for row in ROWS for one in row[2])
NUMBERS = {name: number for number, (name, title) in enumerate(CLASSES)}
TITLES = dict(CLASSES)


def shown(text):
    '''Bytes as text; one outside 20h to 7Eh as \\xNN.'''
    return ''.join(chr(byte) if 0x20 <= byte <= 0x7E else f'\\x{byte:02X}' for byte in text)


# The texts of an annotation go from long to short, for the longest that fits is shown. Where none fits PulseView cuts the last one.

def falling(*texts):
    '''The first text, and of the others each that is shorter than all before it.'''
    kept = [texts[0]]
    for text in texts[1:]:
        if len(text) < len(kept[-1]):
            kept.append(text)
    return kept


def refusal_texts(refusal):
    whole = str(refusal)
    begun = f'Refused as {refusal.number}'
    first = re.split('[:;(]', refusal.words)[0].rstrip()  # what follows are cases and examples
    return falling(whole[:1].upper() + whole[1:], f'{begun}: {first}', begun, f'R{refusal.number}')


def missing_texts(missing):
    # its lines as sentences
    whole = ' '.join(line.strip() if line.endswith(('.', ':')) else line.strip() + '.' for line in str(missing).splitlines())
    return falling(whole[:1].upper() + whole[1:], 'The library libsmclp was not found: set SMCLP_LIBRARY', 'libsmclp was not found', 'no libsmclp', '!')


class Decoder(srd.Decoder):
    api_version = 3
    id = 'smclp'
    name = 'SM CLP'
    longname = 'Server Management Command Line Protocol'
    desc = 'Commands on the serial console of a server (DMTF DSP0214).'
    license = 'unknown'  # the project names none; libsigrokdecode takes any text
    inputs = ['uart']
    outputs = []
    tags = ['PC']
    options = (
        {'id': 'direction', 'desc': 'Direction of the commands', 'default': 'rx', 'values': ('rx', 'tx')},
    )
    annotations = CLASSES
    annotation_rows = tuple((name, title, tuple(NUMBERS[one[0]] for one in classes)) for name, title, classes in ROWS)

    def __init__(self):
        self.reset()

    def reset(self):
        self.placed = None  # the joiner, from the first byte on
        self.missing = False  # whether there is no library
        self.spurious = False  # whether the next frame is none
        self.last = None  # the place of the byte before

    def start(self):
        self.out = self.register(srd.OUTPUT_ANN)
        self.rxtx = ('rx', 'tx').index(self.options['direction'])

    # The place of a byte is the pair of its frame's samples, the first and the last.

    def show(self, name, first, last, texts):
        self.put(first[0], last[1], self.out, [NUMBERS[name], texts])

    def show_part(self, name, places, at, *texts):
        self.show(name, places[at.start], places[at.stop - 1], falling(f'{TITLES[name]}: {texts[0]}', *texts))

    def show_parts(self, line, places):
        def show_own(name, at):
            if at is not None:
                self.show_part(name, places, at, shown(line.text[at]))

        for part in line.parts:
            if isinstance(part, clp.Verb):
                self.show_part('verb', places, part.at, part.name, part.name[0])
            elif isinstance(part, clp.Option):
                self.show_part('option', places, part.at, part.name, part.name[0])
                show_own('argument', part.argument)
            elif isinstance(part, clp.Target):
                show_own('target', part.at)
            else:
                show_own('property', part.name)
                show_own('operator', part.sign)
                show_own('value', part.value)

    def show_line(self, line, places):
        '''A line that has ended. There is a place more than bytes: that of the byte that ended it, or that was the first too many.'''
        first, last = places[0], places[max(len(line.text), 1) - 1]
        if line.blank:
            self.show('blank', first, last, ['Blank line', 'Blank', 'B'])
            return
        self.show('line', first, last, [shown(line.text)])
        self.show_parts(line, places)
        if line.refusal is not None:
            at = places[line.refusal.place]
            self.show('refusal', at, at, refusal_texts(line.refusal))

    def show_cut(self, line, places):
        if line.text:
            self.show('cut', places[0], places[len(line.text) - 1], falling(f'Cut line: {shown(line.text)}', 'Cut line', 'Cut', 'C'))
        else:  # all there is of it is a backtick that waits
            self.show('cut', self.last, self.last, ['Cut line', 'Cut', 'C'])

    def take(self, byte, place):
        self.last = place
        if self.placed is None:
            try:
                self.placed = clp.Placed()
            except clp.LibraryMissing as missing:
                self.missing = True
                self.show('message', place, place, missing_texts(missing))
                return
        ended = self.placed.join(byte, place)
        if ended is not None:
            self.show_line(*ended)

    def decode(self, ss, es, data):
        kind, rxtx, value = data
        if rxtx != self.rxtx or self.missing:
            return
        if kind == 'FRAME':
            # A byte whose parity or stop bit is wrong is taken as it came, for the console's own UART hands it on too. A value of nine bits is noise, as FFh is.
            if not self.spurious:
                self.take(min(value[0], 0xFF), (ss, es))
            self.spurious = False
        elif kind in ('STARTBIT', 'INVALID STARTBIT'):
            # after a start bit that was too short uart gives a frame all the same, with the value of the one before; a UART gives none
            self.spurious = kind == 'INVALID STARTBIT'

    def end(self):
        '''The end of the capture, where sigrok tells of it, under either name; libsigrokdecode 0.5.3 does not.'''
        cut = self.placed.end() if self.placed is not None else None
        if cut is not None:
            self.show_cut(*cut)

    flush = end
