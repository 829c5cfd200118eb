'''The stored capture console.sr: that it is what make.py makes of console.txt, what is shown of it, and, where sigrok-cli is installed, that it shows the same.

What must be shown is stored in console.annotations, as sigrok-cli lists it with each annotation's class and all its texts (-l 4, as below).'''

import os
import shutil
import subprocess
import tempfile
import unittest
import zipfile

import captures
import frames
import make
import plain
import sigrokdecode
from smclp import Decoder

HERE = os.path.dirname(os.path.abspath(__file__))
SIGROK_CLI = shutil.which('sigrok-cli')


def content(name):
    with open(os.path.join(HERE, name), 'rb') as file:
        return file.read()


STORED = os.path.join(HERE, 'console.sr')
ANNOTATIONS = content('console.annotations').decode().splitlines()


def listed(got):
    '''Annotations as sigrok-cli lists them.'''
    return [f'{ss}-{es} smclp-1: {name}: ' + ' '.join(f'"{text}"' for text in texts) for ss, es, name, texts in got]


def shown(samples):
    '''What the decoder shows of a line, by the frames that plain reading finds on it. libsigrokdecode 0.5.3 tells of no end.'''
    decoder = sigrokdecode.started(Decoder)
    for value, (ss, es) in frames.read(samples, make.RATE, make.BAUD):
        decoder.decode(ss, es, ['FRAME', 0, (value, True)])
    return listed(decoder.got)


class Stored(unittest.TestCase):
    @classmethod
    def setUpClass(cls):
        with zipfile.ZipFile(STORED) as capture:
            cls.samples = capture.read('logic-1-1')
        cls.frames = frames.read(cls.samples, make.RATE, make.BAUD)

    def test_capture_is_what_make_makes(self):
        with tempfile.TemporaryDirectory() as folder:
            made = os.path.join(folder, 'console.sr')
            make.write(made, make.samples(make.sent(content('console.txt'))))
            self.assertEqual(content(made), content('console.sr'))

    def test_capture_carries_the_session(self):
        self.assertEqual(bytes(value for value, place in self.frames), content('console.txt').replace(b'\n', b'\r'))

    def test_annotations(self):
        self.assertEqual(shown(self.samples), ANNOTATIONS)

    def test_annotations_by_plain_code(self):
        '''Class, samples and longest text of each, without the decoder.'''
        capture, places = bytes(value for value, place in self.frames), [place for value, place in self.frames]
        wanted = [f'{places[first][0]}-{places[last][1]} smclp-1: {name}: "{text}"' for name, first, last, text in plain.annotations(capture)]
        self.assertEqual(wanted[-1].split('smclp-1: ')[1], 'cut: "Cut line: exi"')
        self.assertEqual(len(ANNOTATIONS), len(wanted) - 1)
        for stored, begun in zip(ANNOTATIONS, wanted):
            self.assertEqual(stored[:len(begun)], begun)


@unittest.skipUnless(SIGROK_CLI, 'sigrok-cli is not installed')
class WithSigrok(unittest.TestCase):
    def listed(self, path, pin='rx', decoder='smclp', **variables):
        run = subprocess.run(
            [SIGROK_CLI, '-l', '4', '-i', path, '-P', f'uart:{pin}=RX:baudrate={make.BAUD},{decoder}', '-A', 'smclp', '--protocol-decoder-samplenum'],
            env={**os.environ, 'SIGROKDECODE_DIR': os.path.join(HERE, '..', '..', 'bindings', 'sigrok'), 'PYTHONPATH': '', **variables},
            capture_output=True, check=True, text=True)
        self.assertNotIn('Traceback', run.stderr)
        return run.stdout.splitlines()

    def test_stored_capture(self):
        self.assertEqual(self.listed(STORED), ANNOTATIONS)

    def test_direction(self):
        self.assertEqual(self.listed(STORED, 'tx', 'smclp:direction=tx'), ANNOTATIONS)
        self.assertEqual(self.listed(STORED, 'tx', 'smclp'), [])
        self.assertEqual(self.listed(STORED, 'rx', 'smclp:direction=tx'), [])

    def test_generated_capture_with_spikes(self):
        '''Spikes on the idle line, shorter than half a bit, bring no byte.'''
        samples = bytearray(make.samples(captures.capture(6, 150)))
        at = spikes = 0
        while (at := samples.find(b'\1' * 100, at) + 50) >= 50:
            samples[at:at + 2] = b'\0\0'
            spikes += 1
        self.assertGreater(spikes, 20)
        with tempfile.TemporaryDirectory() as folder:
            path = os.path.join(folder, 'spikes.sr')
            make.write(path, bytes(samples))
            self.assertEqual(self.listed(path), shown(bytes(samples)))

    def test_missing_library(self):
        lines = self.listed(STORED, SMCLP_LIBRARY='/nowhere/libsmclp.so.0')
        self.assertEqual(len(lines), 1)
        self.assertRegex(lines[0], r'^[0-9]+-[0-9]+ smclp-1: message: "The library libsmclp .*/nowhere/libsmclp\.so\.0.*SMCLP_LIBRARY')
