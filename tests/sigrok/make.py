'''Makes a sigrok capture of a console session: make.py SESSION.txt CAPTURE.sr

The session's text goes over one line, RX, as a terminal sends it: 115,200 baud, 8 data bits, no parity, 1 stop bit, and a CR for each end of line. The capture
is what a logic analyser takes of that line at 1 MHz. The same text gives the same file, to the byte.'''

import sys
import zipfile

RATE = 1000000
BAUD = 115200
IDLE = 20  # bits before the first byte and after the last
GAP = 1  # after each byte
PAUSE = 20  # after each end of line

METADATA = f'''[global]
sigrok version=0.5.2

[device 1]
capturefile=logic-1
total probes=1
samplerate={RATE // 1000000} MHz
total analog=0
probe1=RX
unitsize=1
'''


def sent(text):
    '''What the terminal sends.'''
    return text.replace(b'\n', b'\r')


def bits(data):
    '''The line's level in each bit time.'''
    levels = [1] * IDLE
    for byte in data:
        levels += [0] + [byte >> i & 1 for i in range(8)] + [1] + [1] * (PAUSE if byte == 0x0D else GAP)
    return levels + [1] * IDLE


def samples(data):
    '''A byte for each sample, RX in its lowest bit. Sample i is taken i / RATE seconds after the first.'''
    levels = bits(data)
    return bytes(levels[i * BAUD // RATE] for i in range(len(levels) * RATE // BAUD))


def write(path, taken):
    '''A capture of these samples.'''
    with zipfile.ZipFile(path, 'w') as capture:
        for name, content in (('version', b'2'), ('metadata', METADATA.encode()), ('logic-1-1', taken)):
            # dated and packed alike on every machine
            member = zipfile.ZipInfo(name, (1980, 1, 1, 0, 0, 0))
            member.create_system = 3
            member.external_attr = 0o644 << 16
            capture.writestr(member, content, zipfile.ZIP_STORED)


if __name__ == '__main__':
    source, made = sys.argv[1:]
    with open(source, 'rb') as file:
        write(made, samples(sent(file.read())))
