'''Generated captures of a console, by a seed: good lines and lines that are refused as each number that a capture can be refused as, with joins, every kind of
end of line, and ends that cut a line.'''

import random

ENDS = (b'\n', b'\r', b'\r\n')
PLAIN = (b'examine', b'x', b'help', b'h', b'version', b'v', b'wait', b'w')
NUMBERED = (b'keep', b'k')
LISTED = (b'output', b'o')
# the options of each verb beside these; `exit` has no wait
OWN = {
    b'cd': (), b'create': (), b'delete': (b'force',), b'dump': (b'force', b'destination'), b'exit': (), b'help': (), b'load': (b'f', b'source'),
    b'reset': (b'force',), b'set': (b'F',), b'show': (b'all', b'display', b'level', b'l', b'd', b'a', b'force'), b'start': (b'force',), b'stop': (b'f',),
    b'version': (),
}
NAMES = (b'Name', b'OperationalStatus', b'Location', b'AssetTag', b'x_1')
VALUES = (b'Enabled', b'"rack 7, unit 12"', b'a` b', b'""', b'(a,"b, c")', b'2', b'a`,b', b'`"')


def target(rng):
    tags = [rng.choice((b'system1', b'cpu4', b'os65535', b'..', b'.')) for _ in range(rng.randint(1, 3))]
    return rng.choice((b'/', b'', b'\\')) + b'/'.join(tags) if rng.random() < 0.8 else rng.choice((b'/', b'SESSION', b'cpu*', b'/system1/fan*'))


def option(rng, verb):
    name = rng.choice(PLAIN + NUMBERED + LISTED + OWN[verb] * 3)
    if rng.random() < 0.1:
        name = name.upper()
    terms = [b'-' + name]
    long = name.lower()
    if long in NUMBERED or long in (b'level', b'l'):
        terms.append(rng.choice((b'0', b'2', b'30', b'4294967295')))
    elif long in LISTED or long in (b'display', b'd'):
        terms.append(rng.choice((b'verbose', b'format=text', b'properties=(Name,x_1),targets=cpu')))
    elif long in (b'source', b'destination'):
        terms.append(rng.choice((b'http://host/a` b', b'`-x', b'file')))
    return terms


def command(rng):
    verb = rng.choice(tuple(OWN))
    terms = [verb.upper() if rng.random() < 0.1 else verb]
    for _ in range(rng.choice((0, 0, 1, 1, 2))):
        terms += option(rng, verb)
    if verb != b'help' and rng.random() < 0.7:
        terms.append(target(rng))
        for _ in range(rng.choice((0, 0, 1, 2, 3))):
            terms.append(rng.choice(NAMES) + rng.choice((b'', b'=' + rng.choice(VALUES), b'==' + rng.choice(VALUES))))
    spaces = (b' ', b' ', b' ', b'  ')
    return b''.join(term + rng.choice(spaces) for term in terms).rstrip() if rng.random() < 0.8 else b' ' + b' '.join(terms) + b'  '


def damaged(rng):
    line = bytearray(command(rng))
    at = rng.randrange(len(line))
    byte = rng.choice(b' -"=`/*,0a\t\x80\xff')
    rng.choice((lambda: line.insert(at, byte), lambda: line.__setitem__(at, byte), lambda: line.__delitem__(at)))()
    return bytes(line)


def edge(rng):
    '''Lines at a limit or just past it.'''
    long = b'set . Name=' + rng.choice((b'x', b'``', b'x`,')) * 1100
    return rng.choice((
        b'',
        b'   ',
        b'show . ' + b'a ' * rng.choice((32, 33)),
        b'show ' + b'a ' * 64,
        b'show /' + b'a' * rng.choice((16, 17)) + b'1',
        b'show -w -wait .',
        b'show -level',
        b'show . -w',
        b'cd -zz',
        b'cd -force',
        long[:rng.randint(1020, 1030)],
        long[:rng.randint(1030, 1200)],
    ))


def with_joins(rng, line):
    '''The line's bytes, with a backtick and an end of line put in here and there, though not between a backtick and the byte that it escapes.'''
    made, escaped = bytearray(), False
    for byte in line:
        if not escaped and rng.random() < 0.06:
            made += b'`' + rng.choice(ENDS)
        made.append(byte)
        escaped = byte == 0x60 and not escaped
    return bytes(made)


def capture(seed, lines):
    rng = random.Random(seed)
    made = bytearray()
    for _ in range(lines):
        line = rng.choice((command, command, command, damaged, damaged, edge))(rng)
        made += with_joins(rng, line) if rng.random() < 0.3 else line
        made += rng.choice(ENDS)
    return bytes(made) + rng.choice((b'', b'exi', b'`', b'show`\r', b'`\n', b'cd `', b'x' * 1500))
