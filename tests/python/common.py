"""What the tests share: where things are in the repository, the header as numbers, refusals, files of vectors, and a Python
of its own."""

from __future__ import annotations

import ast
import os
import re
import subprocess
import sys
from pathlib import Path
from typing import Callable, Iterator, List, Tuple

import smclp

ROOT = Path(__file__).resolve().parents[2]
MODULE = ROOT / 'bindings' / 'python' / 'smclp.py'
LIBRARY = Path(os.environ['SMCLP_LIBRARY']).resolve()
HEADER = (ROOT / 'include' / 'clp.h').read_text()
CAPTURE = ROOT / 'crates' / 'clplist' / 'stdin'

#: The header's constants, without their CLP_.
CONSTANTS = {name: int(value) for name, value in re.findall(r'^ +CLP_([A-Z_]+) = ([0-9]+)\b', HEADER, re.MULTILINE)}
CONSTANTS.update((name, 2**64 - 1) for name in re.findall(r'^#define CLP_([A-Z_]+) UINT64_MAX\b', HEADER, re.MULTILINE))


def refused(function: Callable[..., object], *arguments: object) -> Tuple[int, int]:
    """The number and the place that a call is refused with."""
    try:
        answer = function(*arguments)
    except smclp.Refused as refusal:
        return refusal.number, refusal.place
    raise AssertionError(f'not refused: {answer!r}')


def told(function: Callable[..., object], *arguments: object) -> object:
    """What a call answers, a refusal as the vectors have it."""
    try:
        return function(*arguments)
    except smclp.Refused as refusal:
        return f'refusal {refusal.number} at {refusal.place}'


def cells(name: str, columns: int) -> Iterator[Tuple[str, List[str]]]:
    """The cases of a file of vectors, each with the name that changed.tsv has for it."""
    rows = (ROOT / 'tests' / 'vectors' / name).read_text().splitlines()
    for number, row in enumerate(rows, 1):
        found = row.split('\t')
        if len(found) != columns or row.startswith('#') != (number == 1):
            raise AssertionError(f'{name}:{number}: {row}')
        if number > 1:
            yield f'{name}:{number}', found


def bytes_of(cell: str) -> bytes:
    """Pieces such as b'a' or b'a'*65, joined by ' + '."""
    piece = r"(b'(?:[^'\\]|\\.)*')(?:\*([0-9]+))?"
    if not re.fullmatch(rf'{piece}(?: \+ {piece})*', cell):
        raise AssertionError(cell)
    return b''.join(ast.literal_eval(text) * int(times or 1) for text, times in re.findall(piece, cell))


def run_python(program: str, *words: str, **variables: str) -> subprocess.CompletedProcess[str]:
    """Runs a program that imports smclp, from the repository's root. Of the variables that say where the library is, it has
    these alone."""
    environment = {name: value for name, value in os.environ.items() if name not in ('SMCLP_LIBRARY', 'LD_LIBRARY_PATH')}
    environment.update({'PYTHONPATH': str(MODULE.parent), **variables})
    command = [sys.executable, '-c', program, *words]
    return subprocess.run(command, cwd=ROOT, env=environment, stdout=subprocess.PIPE, stderr=subprocess.PIPE, text=True)
