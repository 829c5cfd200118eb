"""Trees: their records, what targets address in them, and full paths."""

from __future__ import annotations

import unittest

import smclp
from common import CONSTANTS, refused

NODES = CONSTANTS['TREE_NODES']
NODE_BYTES = CONSTANTS['NODE_BYTES']
WORKED = bytes.fromhex(
    '10 00 00 06 73 79 73 74 65 6D 00 00 00 00 00 00 00 00 00 00 00 01'
    '10 00 01 03 63 70 75 00 00 00 00 00 00 00 00 00 00 00 00 00 00 04'
)
LONGEST_TAG = 'abcdefghijklmnop'
NO_NODE = 2**64  # handed over as it is this would be node 0


class Records(unittest.TestCase):
    def test_worked(self) -> None:
        tree = smclp.Tree(WORKED)
        self.assertEqual(tree.records, WORKED)
        self.assertEqual(smclp.Tree.of([(0, 'system', 1), (1, b'cpu', 4)]).records, WORKED)
        self.assertEqual([tree.full_path(node) for node in range(3)], [b'/', b'/system1', b'/system1/cpu4'])

    def test_checked_when_made(self) -> None:
        self.assertEqual(refused(smclp.Tree, WORKED[:-1]), (15, NODE_BYTES))
        self.assertEqual(refused(smclp.Tree, WORKED + WORKED[NODE_BYTES:]), (15, 2 * NODE_BYTES))
        self.assertEqual(refused(smclp.Tree, bytes(NODE_BYTES)), (15, 0))

    def test_copied_when_made(self) -> None:
        lent = bytearray(WORKED)
        tree = smclp.Tree(lent)
        lent[:] = bytes(len(lent))
        self.assertEqual(tree.full_path(2), b'/system1/cpu4')

    def test_of_bad_nodes(self) -> None:
        for bad in ((0, '', 1), (0, 'a', 0), (0, 'a1', 1), (2, 'a', 1), (65535, 'a', 1), (0, b'a\0', 1), (0, 'b', 1)):
            self.assertEqual(refused(smclp.Tree.of, [(0, 'b', 1), bad]), (15, NODE_BYTES))
        for large in ((-1, 'a', 1), (0, 'a', -1), (65536, 'a', 1), (0, 'a', 65536), (0, LONGEST_TAG + 'q', 1), (0, 'ä', 1)):
            with self.assertRaises(ValueError):
                smclp.Tree.of([large])
        for other in ((0.0, 'a', 1), (0, 'a', '1'), (0, 5, 1), (0, None, 1)):
            with self.assertRaises(TypeError):
                smclp.Tree.of([other])  # type: ignore[list-item]

    def test_the_root_alone(self) -> None:
        tree = smclp.Tree.of([])
        self.assertEqual((tree.records, tree.full_path(0), tree.resolve(b'/')), (b'', b'/', [0]))


class Resolving(unittest.TestCase):
    def setUp(self) -> None:
        self.tree = smclp.Tree.of([(0, 'system', 1), (1, 'cpu', 1), (1, 'cpu', 2), (1, 'fan', 1), (0, 'system', 2), (5, 'cpu', 1)])

    def test_targets(self) -> None:
        self.assertEqual(self.tree.resolve(b'/system1/cpu*'), [2, 3])
        self.assertEqual(self.tree.resolve(b'cpu*', 5), [6])
        self.assertEqual(self.tree.resolve(b'..\\fan1', default=3), [4])
        self.assertEqual(self.tree.resolve(b'', default=3), [3])
        self.assertEqual(self.tree.resolve(memoryview(b'/')), [0])
        self.assertEqual(self.tree.resolve(bytearray(b'fan*'), 1), [4])

    def test_of_a_line(self) -> None:
        line = smclp.read(b'show /system*')
        assert line.target is not None
        self.assertEqual(self.tree.resolve(line.text[line.target.at]), [1, 5])

    def test_session(self) -> None:
        found = self.tree.resolve(b'SESSION')
        self.assertIs(found, smclp.SESSION)
        self.assertEqual((repr(found), bool(found)), ('SESSION', True))

    def test_refused(self) -> None:
        self.assertEqual(refused(self.tree.resolve, b'system1/'), (12, 8))
        self.assertEqual(refused(self.tree.resolve, b'..'), (17, 0))
        self.assertEqual(refused(self.tree.resolve, b'system1/cpu3'), (18, 8))
        self.assertEqual(refused(self.tree.resolve, b'fan*', 5), (18, 0))

    def test_no_node(self) -> None:
        for node in (7, 512, 65536, NO_NODE - 1, NO_NODE, NO_NODE + 1, 10**30):
            self.assertEqual(refused(self.tree.resolve, b'', node), (16, 0))
            self.assertEqual(refused(self.tree.full_path, node), (16, 0))
        for node in (-1, -NO_NODE):
            with self.assertRaises(ValueError):
                self.tree.resolve(b'', node)
            with self.assertRaises(ValueError):
                self.tree.full_path(node)

    def test_other_types(self) -> None:
        for other in ('1', 1.0, None, b'1'):
            with self.assertRaises(TypeError):
                self.tree.resolve(b'', other)  # type: ignore[arg-type]
            with self.assertRaises(TypeError):
                self.tree.full_path(other)  # type: ignore[arg-type]
            if other != b'1':
                with self.assertRaises(TypeError):
                    self.tree.resolve(other)  # type: ignore[arg-type]


class Most(unittest.TestCase):
    def test_deepest(self) -> None:
        tree = smclp.Tree.of((node, LONGEST_TAG, 65535) for node in range(NODES))
        path = tree.full_path(NODES)
        self.assertEqual(path, f'/{LONGEST_TAG}65535'.encode() * NODES)
        self.assertEqual(len(path), CONSTANTS['PATH_BYTES'])

    def test_widest(self) -> None:
        tree = smclp.Tree.of((0, 'a', number) for number in range(1, NODES + 1))
        self.assertEqual(tree.resolve(b'a*'), list(range(1, NODES + 1)))

    def test_too_many(self) -> None:
        nodes = [(0, 'a', number) for number in range(1, NODES + 2)]
        self.assertEqual(refused(smclp.Tree.of, nodes), (15, NODES * NODE_BYTES))


if __name__ == '__main__':
    unittest.main()
