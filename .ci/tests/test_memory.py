"""What fuzz/memory takes for wrong in a run in which memory ran out, and in one with all its memory."""
import importlib.machinery
import importlib.util
import sys
import unittest
from pathlib import Path

TOP = Path(__file__).resolve().parents[2]
sys.dont_write_bytecode = True


def loaded():
    loader = importlib.machinery.SourceFileLoader("memory", str(TOP / "fuzz/memory"))
    found = importlib.util.module_from_spec(importlib.util.spec_from_loader("memory", loader))
    loader.exec_module(found)
    return found


memory = loaded()


class Wrong(unittest.TestCase):
    def trial(self, name):
        return next(it for it in [*memory.audits(), *memory.infers(), *memory.shows()] if it.name == name)

    def test_an_explanation_leaves_no_file(self):
        trial, ample = self.trial("infer --explain of a byte"), (1, b"no tree found\n", b"told: x\nfound: y\n", {})
        less = b"told: x\n" + memory.OUT_OF_MEMORY
        self.assertIsNone(memory.wrong(trial, ample, (1, ample[1], less, {})))
        self.assertIsNotNone(memory.wrong(trial, ample, (1, ample[1], less, {"out.tree": b"junk"})))

    def test_a_tree_file_is_there_whole_or_not_at_all(self):
        trial, tree = self.trial("infer of a listing"), memory.LISTED
        ample, failed = (0, b"inferred\n", b"", {"out.tree": tree}), (3, b"", memory.OUT_OF_MEMORY)
        for files, is_right in (({}, True), ({"out.tree": tree}, True), ({"out.tree": tree[:50]}, False),
                                ({"out.tree": b""}, False), ({"out.tree.new-0123456789abcdef": tree}, False)):
            self.assertEqual(memory.wrong(trial, ample, (*failed, files)) is None, is_right, files)

    def test_a_run_with_all_its_memory_has_its_status(self):
        for name, status in (("infer of a listing", 0), ("infer --explain of a byte", 1),
                             ("show of a tree that is cut", 2)):
            for came in range(4):
                told = memory.amiss(self.trial(name), (came, b"", b"", {}))
                self.assertEqual(told is None, came == status, (name, came))
