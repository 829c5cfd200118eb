"""Where the library is looked for and what is said where it is missing; the examples in the module and in the pages."""

from __future__ import annotations

import _ctypes
import doctest
import os
import re
import shutil
import sysconfig
import tempfile
import unittest
from pathlib import Path

import smclp
from common import LIBRARY, MODULE, ROOT, run_python

USE = "import {0}; print({0}.canonical(b'CD').decode())"
FIND = USE.format('smclp')
NOWHERE = '/nowhere/libsmclp.so.0'


class Found(unittest.TestCase):
    def test_by_the_variable(self) -> None:
        self.assertEqual(run_python(FIND, SMCLP_LIBRARY=str(LIBRARY)).stdout, 'cd\n')
        self.assertEqual(run_python(FIND, SMCLP_LIBRARY=os.path.relpath(LIBRARY, ROOT)).stdout, 'cd\n')

    def test_by_the_loader(self) -> None:
        with tempfile.TemporaryDirectory() as folder:
            shutil.copy(LIBRARY, Path(folder, smclp._SONAME))
            self.assertEqual(run_python(FIND, LD_LIBRARY_PATH=folder).stdout, 'cd\n')

    def test_under_the_prefix(self) -> None:
        """As installed for Python and for sigrok, in each of the folders that a library is in; the loader knows none of them."""
        if run_python(f"import ctypes; ctypes.CDLL('{smclp._SONAME}')").returncode == 0:
            self.skipTest('the loader knows of an installed library')
        module = 'lib/python3/dist-packages/smclp.py', 'lib64/python3.9/site-packages/smclp.py'
        decoder = 'share/libsigrokdecode/decoders/smclp/clp.py'
        for path in module + (decoder,):
            for library in ('lib', 'lib64', f'lib/{sysconfig.get_config_var("MULTIARCH") or "."}'):
                with tempfile.TemporaryDirectory() as prefix:
                    copy, there = Path(prefix, path), Path(prefix, library, smclp._SONAME)
                    copy.parent.mkdir(parents=True)
                    there.parent.mkdir(parents=True, exist_ok=True)
                    shutil.copy(MODULE, copy)
                    missing = run_python(USE.format(copy.stem), PYTHONPATH=str(copy.parent))
                    self.assertIn(f'  {there}: ', missing.stderr)
                    shutil.copy(LIBRARY, there)
                    found = run_python(USE.format(copy.stem), PYTHONPATH=str(copy.parent))
                    self.assertEqual((found.stdout, found.stderr), ('cd\n', ''), (path, library))

    def test_nowhere_else_where_one_is_named(self) -> None:
        with tempfile.TemporaryDirectory() as folder:
            shutil.copy(LIBRARY, Path(folder, smclp._SONAME))
            self.assertIn('LibraryMissing', run_python(FIND, SMCLP_LIBRARY=NOWHERE, LD_LIBRARY_PATH=folder).stderr)


class Missing(unittest.TestCase):
    def message(self, path: str) -> str:
        """What is said where the variable names this file; importing the module does not need it, each use does."""
        program = '''
import smclp
uses = [smclp.Joiner, smclp.Placed, lambda: smclp.read(b''), lambda: smclp.Tree(b''), lambda: next(smclp.lines([]))]
uses.append(lambda: smclp.read_reply(b''))
messages = set()
for use in uses:
    try:
        use()
    except smclp.LibraryMissing as missing:
        messages.add(str(missing))
(message,) = messages
print(message)
'''
        done = run_python(program, SMCLP_LIBRARY=path)
        self.assertEqual(done.stderr, '')
        return done.stdout

    def test_no_file(self) -> None:
        message = self.message(NOWHERE)
        self.assertTrue(message.startswith(f'the library libsmclp was not found. Tried:\n  {NOWHERE}: '), message)
        for word in ('SMCLP_LIBRARY', 'packaging/install', 'PREFIX', 'ldconfig', 'libsmclp.so.0'):
            self.assertIn(word, message.splitlines()[-1])

    def test_no_library(self) -> None:
        self.assertIn(f'  {MODULE}: ', self.message(str(MODULE)))

    def test_another_library(self) -> None:
        other = getattr(_ctypes, '__file__', None)
        if other is None:
            self.skipTest('this Python has no library of its own')
        self.assertRegex(self.message(other), f'  {re.escape(other)}: .*undefined symbol: clp_join')

    def test_is_an_os_error(self) -> None:
        self.assertTrue(issubclass(smclp.LibraryMissing, OSError))


class Pages(unittest.TestCase):
    def check(self, page: Path) -> None:
        """Each example in Python prints the block that follows it."""
        blocks = re.findall(r'^```(\w*)\n(.*?)^```$', page.read_text(), re.MULTILINE | re.DOTALL)
        examples = [at for at, (language, _) in enumerate(blocks) if language == 'python']
        self.assertTrue(examples, f'{page.name} has no example in Python')
        for at in examples:
            done = run_python(blocks[at][1], SMCLP_LIBRARY=str(LIBRARY))
            self.assertEqual(done.stderr, '')
            self.assertEqual(('', done.stdout), blocks[at + 1])

    def test_the_first_page(self) -> None:
        self.check(ROOT / 'README.md')

    def test_the_page_of_the_module(self) -> None:
        self.check(MODULE.with_name('README.md'))


def load_tests(loader: unittest.TestLoader, tests: unittest.TestSuite, pattern: object) -> unittest.TestSuite:
    tests.addTests(doctest.DocTestSuite(smclp))
    return tests


if __name__ == '__main__':
    unittest.main()
