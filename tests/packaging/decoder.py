"""Gives a capture to the decoder, byte by byte: CAPTURE. Prints which file the decoder is, and which the library."""
import sys, sigrokdecode, smclp
decoder = sigrokdecode.started(smclp.Decoder)
for at, byte in enumerate(open(sys.argv[1], 'rb').read()):
    decoder.decode(at * 10, at * 10 + 9, ['FRAME', 0, (byte, [])])
assert [got[3][0] for got in decoder.got if got[2] == 'verb'] == ['Verb: show'], decoder.got
assert [got[:2] for got in decoder.got if got[2] == 'refusal'] == [(390, 399)], decoder.got
with open('/proc/self/maps') as maps:
    print(smclp.__file__, *sorted({line.split()[-1] for line in maps if 'libsmclp' in line}))
