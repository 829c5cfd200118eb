"""Reads a capture with the module: CAPTURE TEXT VERSION. Prints which file the module is, and which the library."""
import sys, smclp
with open(sys.argv[1], 'rb') as capture:
    text = b''.join(smclp.records_text(line.records) for line in smclp.lines(iter(lambda: capture.read(5), b'')))
assert text == open(sys.argv[2], 'rb').read(), text
assert smclp.__version__ == sys.argv[3], smclp.__version__
with open('/proc/self/maps') as maps:
    print(smclp.__file__, *sorted({line.split()[-1] for line in maps if 'libsmclp' in line}))
