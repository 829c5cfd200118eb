"""The module's tables, constants, structs and functions held to include/clp.h, README.md and VERSION."""

from __future__ import annotations

import ast
import ctypes
import re
import unittest
from typing import Any, Dict, Iterator, Tuple

import smclp
from common import CONSTANTS, HEADER, MODULE, ROOT

# Numbers of the module that are none of the header's.
OWN_NUMBERS = {'_TEXT_BYTES_EACH', '_REPLY_RECORDS_EACH', '_LARGEST'}

# How each function of the header takes and gives its types.
TYPES: Dict[str, Any] = {
    'uint64_t': ctypes.c_uint64,
    'size_t': ctypes.c_size_t,
    'pointer': ctypes.c_void_p,
    'clp_answer': smclp._Answer,
    'clp_joined': smclp._Joined,
    'clp_term': smclp._Term,
    'clp_part': smclp._Part,
}


def numbered(family: str) -> Dict[int, str]:
    """A family of the header's names by their numbers."""
    names = {name[len(family) :]: number for name, number in CONSTANTS.items() if name.startswith(family)}
    return {number: name for name, number in names.items() if name != 'BYTES'}


def prototypes() -> Iterator[Tuple[str, str, Tuple[str, ...]]]:
    """The header's functions: name, what is given back, what is taken."""
    for given, name, taken in re.findall(r'^(clp_\w+) clp_(\w+)\(([^;]*)\);$', HEADER, re.MULTILINE):
        types = ('pointer' if '*' in word else word.split()[0] for word in taken.split(','))
        yield name, given, tuple(types)


def words_of_the_page(sentence: str) -> Dict[int, str]:
    """A table of refusals in README.md: the rows below the sentence that stands above it."""
    page = (ROOT / 'README.md').read_text()
    _, below = page.split(sentence, 1)
    rows: Dict[int, str] = {}
    for line in below.splitlines():
        row = re.fullmatch(r'\| ([0-9]+) \| (.*) \|', line)
        if row:
            rows[int(row[1])] = row[2]
        elif rows:
            break
    return rows


class Tables(unittest.TestCase):
    def test_verbs(self) -> None:
        self.assertEqual(smclp.VERBS, {number: name.lower() for number, name in numbered('VERB_').items()})
        self.assertEqual(len(smclp.VERBS), 13)

    def test_verbs_are_those_that_are_read(self) -> None:
        for number, name in smclp.VERBS.items():
            self.assertEqual(smclp.read(name.encode()).verb, smclp.Verb(number, name, slice(0, len(name))))

    def test_options(self) -> None:
        self.assertEqual(smclp.OPTIONS, {number: name.lower() for number, name in numbered('OPTION_').items()})
        self.assertEqual(len(smclp.OPTIONS), 12)
        for name in smclp.OPTIONS.values():
            self.assertRegex(HEADER, rf'CLP_OPTION_{name.upper()} = [0-9]+,? +/\* -{name}[,:]')

    def test_operators(self) -> None:
        written = {'NONE': 'name', 'SET': 'name=value', 'EQUALS': 'name==value'}
        for number, name in numbered('OPERATOR_').items():
            self.assertEqual(f'name{smclp.OPERATORS[number]}' + ('value' if number else ''), written[name])
        self.assertEqual(set(smclp.OPERATORS), set(numbered('OPERATOR_')))
        for number, operator in smclp.OPERATORS.items():
            if number:
                line = smclp.read(f'set a{operator}b'.encode())
                self.assertEqual((line.records[-5], line.properties[0].operator), (number, operator))

    def test_words_of_refusals(self) -> None:
        of_lines = words_of_the_page('Where a line is refused, look at the byte at the place')
        of_replies = words_of_the_page('Where a reply is refused, look at the line that starts at the place')
        self.assertEqual((list(of_lines), list(of_replies)), (list(range(1, 21)), list(range(21, 26))))
        self.assertEqual(smclp.REFUSALS, {**of_lines, **of_replies})
        self.assertEqual(set(smclp.REFUSALS), set(numbered('REFUSED_')))
        self.assertEqual(len(smclp.REFUSALS), 25)

    def test_constants(self) -> None:
        held = 0
        for name, value in vars(smclp).items():
            if re.fullmatch('_[A-Z][A-Z_]*', name) and isinstance(value, int) and name not in OWN_NUMBERS:
                self.assertEqual(value, CONSTANTS[name[1:]], name)
                held += 1
        self.assertEqual(held, 25)
        self.assertEqual(smclp._TEXT_BYTES_EACH * CONSTANTS['READING_BYTES'], CONSTANTS['TEXT_BYTES'])
        self.assertIn('at most 6 for each byte of records', HEADER)
        self.assertEqual(smclp._REPLY_RECORDS_EACH * CONSTANTS['REPLY_BYTES'] - 26, CONSTANTS['REPLY_RECORDS_BYTES'])
        self.assertIn('at most 3 * n - 26 bytes of records', HEADER)

    def test_records(self) -> None:
        for name in ('VERB', 'OPTION', 'TARGET', 'PROPERTY', 'REFUSAL', 'NODE', 'ITEM', 'GROUP'):
            self.assertEqual(getattr(smclp, f'_{name}').size, CONSTANTS[f'{name}_BYTES'], name)
        for name in ('BLANK', 'CUT', 'END_GROUP', 'END_OUTPUT'):
            self.assertEqual(CONSTANTS[f'{name}_BYTES'], 1, name)

    def test_structs(self) -> None:
        structs = re.findall(r'^typedef struct \{\n(.*?)\} (\w+);', HEADER, re.MULTILINE | re.DOTALL)
        self.assertEqual({name for _, name in structs}, {name for name in TYPES if name.startswith('clp_')})
        for body, name in structs:
            fields = [(field, TYPES[of]) for of, field in re.findall(r'^ +(\w+) (\w+);', body, re.MULTILINE)]
            self.assertEqual(TYPES[name]._fields_, fields, name)
            self.assertEqual(ctypes.sizeof(TYPES[name]), 8 * len(fields), name)

    def test_functions(self) -> None:
        used = vars(smclp._library())
        header = {name: (given, taken) for name, given, taken in prototypes()}
        self.assertEqual(len(header), 16)
        self.assertEqual(set(header) - set(used), {'list', 'list_end'})  # clp_join and clp_read, for the length of the line
        for name, function in used.items():
            given, taken = header[name]
            self.assertIs(function.restype, TYPES[given], name)
            self.assertEqual(tuple(function.argtypes), tuple(TYPES[word] for word in taken), name)

    def test_version(self) -> None:
        self.assertEqual(smclp.__version__, (ROOT / 'VERSION').read_text().strip())
        self.assertEqual(smclp._SONAME, f'libsmclp.so.{smclp.__version__.split(".")[0]}')

    def test_public_names(self) -> None:
        self.assertEqual(sorted(smclp.__all__), sorted(set(smclp.__all__)))
        for name in smclp.__all__:
            self.assertTrue(hasattr(smclp, name), name)
        tree = ast.parse(MODULE.read_text(), feature_version=(3, 8))  # as the oldest Python that it is for reads it
        for node in tree.body:
            if isinstance(node, (ast.ClassDef, ast.FunctionDef)) and not node.name.startswith('_'):
                self.assertIn(node.name, smclp.__all__)
                self.assertIsNotNone(ast.get_docstring(node), node.name)


if __name__ == '__main__':
    unittest.main()
