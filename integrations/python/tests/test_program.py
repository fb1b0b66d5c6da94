"""How the program is found, and runs that end otherwise than by an answer: the programs here are small scripts in its place."""

import os
import pathlib
import pty
import signal
import subprocess
import sys
import tempfile
import textwrap
import time
import unittest
from unittest import mock

from datemound import Model, ProgramError, Var, find_program

from .support import ROOT

FOLDER = pathlib.Path(__file__).resolve().parents[1]
PLAN = "from datemound import Model, Var\nmodel = Model(Var('x', 0, 1) <= 1)\n"


def small_model():
    return Model(Var("x", 0, 1) <= 1)


class WithScripts(unittest.TestCase):
    def setUp(self):
        holder = tempfile.TemporaryDirectory()
        self.addCleanup(holder.cleanup)
        self.folder = pathlib.Path(holder.name)
        (self.folder / "tmp").mkdir()

    def script(self, lines, name="gdp"):
        path = self.folder / name
        path.write_text("#!/usr/bin/env bash\n" + textwrap.dedent(lines))
        path.chmod(0o755)
        return str(path)

    def named(self, program):
        return mock.patch.dict(os.environ, {"DATEMOUND_GDP": program})

    def start(self, program, code, **more):
        """A Python of its own that runs the code, with the script as its program and a folder for temporary files of its own."""
        around = {**os.environ, "DATEMOUND_GDP": program, "PYTHONPATH": str(FOLDER), "TMPDIR": str(self.folder / "tmp")}
        return subprocess.Popen([sys.executable, "-c", PLAN + code], env=around, stdin=subprocess.DEVNULL, **more)

    def assert_no_file_left(self):
        self.assertEqual(list((self.folder / "tmp").iterdir()), [])


class Found(WithScripts):
    def test_the_variable_comes_first(self):
        one, other = self.script("", "one"), self.script("")
        with mock.patch.dict(os.environ, {"DATEMOUND_GDP": one, "PATH": f"{self.folder}:{os.environ['PATH']}"}):
            self.assertEqual(find_program(), one)
            del os.environ["DATEMOUND_GDP"]
            self.assertEqual(find_program(), other)

    def test_beside_the_module(self):
        with mock.patch.dict(os.environ, {"PATH": str(self.folder)}):
            os.environ.pop("DATEMOUND_GDP", None)
            self.assertEqual(find_program(), str(ROOT / "gdp"))

    def test_a_name_that_is_no_program(self):
        with self.named(str(self.folder / "nothing")), self.assertRaises(ProgramError) as caught:
            small_model().solve()
        self.assertIn("DATEMOUND_GDP names", str(caught.exception))


class Ended(WithScripts):
    # The script, its status as the error has it, and words of the sentence.
    FAULTS = [
        ("kill -9 $$", -9, "ended by the signal 9"),
        ("echo 'out of memory' >&2; exit 8", 8, "ran out of memory"),
        ("echo 'words refused' >&2; exit 7", 7, "another program of this name"),
        ("echo 'gdp: the program is not built: no kit' >&2; exit 10", 10, "no kit"),
        ("exit 42", 42, "ended with the status 42"),
        ("echo hello", 0, "answered what Datemound does not: 'hello'"),
        ("echo gdp-log 1; exit 3", 3, "answered what Datemound does not"),
        ("exit 1", 1, "answered what Datemound does not"),
        ("echo 'read fault: model.gdp' >&2; exit 5", 5, "read fault"),
    ]

    def test_faults(self):
        for lines, status, words in self.FAULTS:
            with self.subTest(lines=lines), self.named(self.script(lines)), self.assertRaises(ProgramError) as caught:
                small_model().solve()
            self.assertEqual(caught.exception.status, status)
            self.assertIn(words, str(caught.exception))

    def test_not_to_be_run(self):
        path = self.folder / "gdp"
        path.write_bytes(b"\x7fELF no program")
        path.chmod(0o755)
        with self.named(str(path)), self.assertRaises(ProgramError) as caught:
            small_model().solve()
        self.assertIn("can't be run", str(caught.exception))

    def test_other_answers(self):
        with self.named(self.script("echo yes")):
            for call in (lambda: small_model().test({"x": 1}), lambda: small_model().check("gdp-answer 1\n")):
                with self.assertRaises(ProgramError):
                    call()


class Shown(WithScripts):
    SLOW = "sleep 2.2; printf 'gdp-answer 1\\nroute hybrid\\nempty\\ntree\\nrefuted 0:1\\nend\\n'"

    def test_time_on_a_terminal(self):
        ours, theirs = pty.openpty()
        child = self.start(self.script(self.SLOW), "print(model.solve(steps=7))", stdout=subprocess.PIPE, stderr=theirs)
        os.close(theirs)
        out, _ = child.communicate(timeout=60)
        shown = os.read(ours, 100_000).decode()
        os.close(ours)
        self.assertEqual(out, b"empty\n")
        self.assertRegex(shown, r"gdp solve hybrid 7 model\.gdp: [0-9]+ s, and goes on \(Ctrl-C ends it\)")
        self.assertTrue(shown.endswith("\r\x1b[K"))
        self.assert_no_file_left()

    def test_nothing_without_a_terminal(self):
        child = self.start(self.script(self.SLOW), "print(model.solve())", stdout=subprocess.PIPE, stderr=subprocess.PIPE)
        self.assertEqual(child.communicate(timeout=60), (b"empty\n", b""))

    def test_what_the_launcher_says_of_its_build(self):
        lines = "echo 'gdp: proving crate 1 of 2: low' >&2; sleep 0.7; echo 'gdp: proving crate 2 of 2: high' >&2; " + self.SLOW
        child = self.start(self.script(lines), "print(model.solve(progress=False))", stdout=subprocess.PIPE, stderr=subprocess.PIPE)
        self.assertEqual(child.communicate(timeout=60), (b"empty\n", b"gdp: proving crate 1 of 2: low\ngdp: proving crate 2 of 2: high\n"))


class Interrupted(WithScripts):
    def test_ctrl_c(self):
        """Ctrl-C ends the program too, and leaves no file."""
        program = self.script(f"sleep 1; echo $$ > {self.folder}/at; mv {self.folder}/at {self.folder}/pid; exec sleep 60")
        child = self.start(program, "model.solve()", stdout=subprocess.DEVNULL, stderr=subprocess.PIPE)
        until = time.monotonic() + 30
        while not (self.folder / "pid").exists() and time.monotonic() < until:
            time.sleep(0.02)
        pid = int((self.folder / "pid").read_text())
        self.assertEqual(len(list((self.folder / "tmp").iterdir())), 1)
        child.send_signal(signal.SIGINT)
        _, err = child.communicate(timeout=30)
        self.assertIn(b"KeyboardInterrupt", err)
        with self.assertRaises(ProcessLookupError):
            os.kill(pid, 0)
        self.assert_no_file_left()

    def test_a_program_that_does_not_end_at_once(self):
        program = self.script(f"trap '' TERM; sleep 1; echo $$ > {self.folder}/at; mv {self.folder}/at {self.folder}/pid; while :; do sleep 0.1; done")
        child = self.start(program, "model.solve()", stdout=subprocess.DEVNULL, stderr=subprocess.DEVNULL)
        until = time.monotonic() + 30
        while not (self.folder / "pid").exists() and time.monotonic() < until:
            time.sleep(0.02)
        pid = int((self.folder / "pid").read_text())
        child.send_signal(signal.SIGINT)
        child.wait(timeout=30)
        with self.assertRaises(ProcessLookupError):
            os.kill(pid, 0)
        self.assert_no_file_left()


if __name__ == "__main__":
    unittest.main()
