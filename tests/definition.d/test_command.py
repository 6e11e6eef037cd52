"""tools/define as a command: what it prints, its options, and what it says where it can't."""

import pathlib
import subprocess
import sys
import tempfile
import unittest

TOP = pathlib.Path(__file__).resolve().parents[2]
PLATFORM = "zone = [{id = 'z', routing = 'Full'}]\nhost = [{id = 'h1', zone = 'z', speed = '10f'}]\n"
DEPLOYMENT = "actor = [{name = 'p0', host = 'h1', function = 'replay'}, {name = 'p1', host = 'h1', function = 'replay'}]\n"
SCRIPT = "p0 compute 10\np1 compute 5\n"
TRACE = ("[h1:p1:(2) 1.000000000] compute 5 1.000000000\n[h1:p0:(1) 1.500000000] compute 10 1.500000000\n"
         "Simulation time 1.500000000\n")


def define(*words, files=None):
    """Runs the tool over files of these names."""
    with tempfile.TemporaryDirectory(prefix="define-") as folder:
        for name, text in (files or {"p": PLATFORM, "d": DEPLOYMENT, "s": SCRIPT}).items():
            pathlib.Path(folder, name).write_text(text, encoding="utf-8")
        return subprocess.run([sys.executable, "-B", TOP / "tools/define", *words], cwd=folder, capture_output=True, text=True, timeout=600)


class Command(unittest.TestCase):
    def told(self, done, status, out, err):
        self.assertEqual((done.returncode, done.stdout), (status, out), done.stderr)
        self.assertIn(err, done.stderr)
        self.assertNotIn("Traceback", done.stderr)

    def test_streams_and_status(self):
        self.told(define("replay", "p", "d", "s"), 0, TRACE, "")
        self.told(define("replay", "p", "d", "none"), 10, "", "cannot read the script")

    def test_refused_words(self):
        self.told(define("replay", "p"), 2, "", "this command line gives MissingRequiredArgument; the definition doesn't fix the text")

    def test_a_trace(self):
        done = define("--trace", "Fill.share_at", "replay", "p", "d", "s")
        self.told(done, 0, TRACE, "share_at (Fill.antt:")
        self.assertIn("level = 5\n    -> 5\n", done.stderr)

    def test_what_it_refuses(self):
        self.told(define("--trace", "nothing", "replay", "p", "d", "s"), 101, "", "the program has no definition nothing")
        self.told(define("--seconds", "soon", "replay", "p", "d", "s"), 101, "", "--seconds needs a number")

    def test_a_term(self):
        self.told(define("--eval", "sg_maxmin.Fill", "fill (10 ∷ []) (flow (0 ∷ []) 1 (Some 2) ∷ flow (0 ∷ []) 1 None ∷ [])"), 0, "[2, 8]\n", "")

    def test_what_is_too_large(self):
        many = "p0 yield\n" * 4000
        self.told(define("--seconds", "4", "replay", "p", "d", "s", files={"p": PLATFORM, "d": DEPLOYMENT, "s": many}), 101, "", "no answer within 4 seconds")


if __name__ == "__main__":
    unittest.main()
