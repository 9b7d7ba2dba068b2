"""The mutants of tools/wrong_bodies, which CI does not try: each can still be put in place."""
import os
import subprocess
import sys
import unittest

ROOT = os.path.dirname(os.path.dirname(os.path.abspath(__file__)))
BODIES = os.path.join(ROOT, "tools", "wrong_bodies")


def listed(*words):
    """What the tool prints of the mutants that are named, and its status."""
    tool = os.path.join(ROOT, "tools", "try_wrong_bodies.py")
    ran = subprocess.run([sys.executable, "-B", tool, "--list", *words], stdout=subprocess.PIPE, stderr=subprocess.STDOUT, text=True)
    return ran.stdout, ran.returncode


def names_in(crate):
    return sorted(name[: -len(".edit")] for name in os.listdir(os.path.join(BODIES, crate)))


class Mutants(unittest.TestCase):
    def test_each_mutant_can_be_put_in_place(self):
        printed, status = listed()
        self.assertEqual(status, 0, printed)

    def test_a_crate_or_a_single_mutant_can_be_named(self):
        names = names_in("quic_queue")
        for words, count in [
            (["quic_queue"], len(names)),
            ([f"quic_queue/{names[0]}"], 1),
            ([f"quic_queue/{names[0]}", "quic_queue"], len(names)),
            ([f"quic_queue/{names[0]}", f"quic_queue/{names[1]}", "quic_lines"], 2 + len(names_in("quic_lines"))),
        ]:
            printed, status = listed(*words)
            self.assertEqual((printed.split(",")[0], status), (f"{count} edits", 0), words)

    def test_an_unknown_name_is_an_error(self):
        for word, wrong in [("no_crate", "no folder no_crate"), ("quic_queue/no_name", "no file quic_queue/no_name.edit")]:
            printed, status = listed(word)
            self.assertIn(wrong, printed)
            self.assertEqual(status, 2)


if __name__ == "__main__":
    unittest.main()
