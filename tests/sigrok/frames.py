'''The frames of a UART: the samples that they take, and what uart makes of a line that carries them.'''

import math
import random
from fractions import Fraction


def uneven(count, seed):
    '''The first and the last sample of so many frames, of all lengths and with all gaps; as with uart, one may end a sample after the next has begun.'''
    rng, end, found = random.Random(seed), 1, []
    for _ in range(count):
        first = end + rng.choice((-1, 0, 1, 30, 1000))
        end = first + rng.randint(2, 120)
        found.append((first, end))
    return found


def read(samples, rate, baud):
    '''The frames that uart finds on a line (8 data bits, no parity, 1 stop bit), a byte for each sample: their values, and the samples that it gives them. A frame
    begins with the first low sample; a bit is looked at in its middle, and a frame ends half a bit after the middle of its stop bit.'''
    width = Fraction(rate, baud)
    found, at = [], 0
    while True:
        first = samples.find(b'\1\0', at) + 1
        if first == 0:
            return found
        middles = [math.ceil(first + (width - 1) / 2 + bit * width) for bit in range(10)]
        at = middles[0]
        if samples[at] == 0:  # else it was a spike
            value = sum(samples[middle] << bit for bit, middle in enumerate(middles[1:9]))
            at = middles[9]
            found.append((value, (first, at + math.ceil(width / 2))))
