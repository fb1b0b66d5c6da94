#!/usr/bin/env python3
"""Runs the built program on real files, and compares status, output and error byte for byte with a table.

`end-to-end.py [PROGRAM..]` tries the programs that `rt ci` built, and the launcher, or else those named. It prints a line
for each row that fails and ends with `N passed, M failed`. The table is in `cases.py`. Where glpsol and cbc are installed, they
are given the LP texts of the table. The checker of answers in `tools/`, a program of its own, has its rows in
`certificate_cases.py`, and what `gdp explain` says has `explain_cases.py`.
"""

import concurrent.futures
import os
import pathlib
import resource
import subprocess
import sys
import tempfile
import threading
import time

sys.dont_write_bytecode = True
import certificate_cases  # noqa: E402
import explain_cases  # noqa: E402
import lp_cases  # noqa: E402
import lp_solvers  # noqa: E402
from case import CLOSED, FULL, GONE  # noqa: E402
from cases import cases  # noqa: E402
from compile_cases import lp_texts, optima  # noqa: E402

ROOT = pathlib.Path(__file__).resolve().parent.parent
BUILT = ROOT / "crates" / "gdp_cli" / "out"
LAUNCHER = str(ROOT / "gdp")
# What the launcher answers by itself, where it is the only word.
ITS_OWN = {"--help": b"usage: gdp test MODEL POINT", "--version": b"Datemound, commit "}
SECONDS = 120


def lay_out(files, folder):
    """Writes the files of a row, a folder where the contents are None."""
    for name, contents in files.items():
        path = os.path.join(os.fsencode(folder), os.fsencode(name))
        if contents is None:
            os.makedirs(path)
            continue
        os.makedirs(os.path.dirname(path), exist_ok=True)
        with open(path, "wb") as file:
            file.write(contents)


def changed_files(files, folder):
    """Names the files of a row that the run changed, and those that it made."""
    found = {}
    for at, _, names in os.walk(folder):
        for name in names:
            path = os.path.join(at, name)
            found[os.path.relpath(path, folder)] = pathlib.Path(path).read_bytes()
    wanted = {os.path.normpath(name): contents for name, contents in files.items() if contents is not None}
    return [name for name in found.keys() | wanted.keys() if found.get(name) != wanted.get(name)]


def feed(pipe, pieces):
    """Writes the pieces one after the other, with a pause before each but the first."""
    try:
        for i, piece in enumerate(pieces):
            time.sleep(0.02 if i else 0)
            pipe.write(piece)
            pipe.flush()
        pipe.close()
    except OSError:
        pass


def run(program, case):
    """Runs the program on a row, and gives what differs."""
    with tempfile.TemporaryDirectory() as folder:
        lay_out(case.files, folder)
        closed = [i for i, to in ((0, case.stdin), (1, case.out), (2, case.err)) if to is CLOSED]
        mute = {1: case.out, 2: case.err}
        ends, handles = {}, []
        for stream, to in mute.items():
            if to is FULL:
                handles.append(os.open("/dev/full", os.O_WRONLY))
                ends[stream] = handles[-1]
            elif to is GONE:
                reader, writer = os.pipe()
                os.close(reader)
                handles.append(writer)
                ends[stream] = writer
            else:
                ends[stream] = subprocess.DEVNULL if to is CLOSED else subprocess.PIPE

        def prepare():
            for stream in closed:
                os.close(stream)
            if case.room:
                resource.setrlimit(resource.RLIMIT_AS, (case.room, case.room))

        is_fed = isinstance(case.stdin, list)
        child = subprocess.Popen(
            [program, *case.words],
            cwd=folder,
            stdin=subprocess.PIPE if is_fed else subprocess.DEVNULL,
            stdout=ends[1],
            stderr=ends[2],
            preexec_fn=prepare,
        )
        for handle in handles:
            os.close(handle)
        if is_fed:
            pipe, child.stdin = child.stdin, None
            threading.Thread(target=feed, args=(pipe, case.stdin), daemon=True).start()
        try:
            out, err = child.communicate(timeout=SECONDS)
        except subprocess.TimeoutExpired:
            child.kill()
            child.communicate()
            return [f"no end within {SECONDS} seconds"]
        told = [("status", case.status, child.returncode)]
        told += [("output", case.out, out)] if isinstance(case.out, bytes) else []
        told += [("error", case.err, err)] if isinstance(case.err, bytes) else []
        wrong = [f"{what} {got!r:.200} and not {want!r:.200}" for what, want, got in told if got != want]
        return wrong + [f"the file {name!r} is not as it was" for name in changed_files(case.files, folder)]


def ask_launcher(word):
    """Calls the launcher with a word that it answers by itself, and gives what differs."""
    ran = subprocess.run([LAUNCHER, word], stdin=subprocess.DEVNULL, capture_output=True, check=False)
    is_right = ran.returncode == 0 and ran.stdout.startswith(ITS_OWN[word]) and not ran.stderr
    return [] if is_right else [f"status {ran.returncode}, output {ran.stdout!r:.200}, error {ran.stderr!r:.200}"]


def rows(program, table):
    """Gives the name of each row for the program, and a call that says what differs.

    The launcher hands everything through but what it answers by itself, so the rows that take long, or are many, are left to the program.
    """
    if program == LAUNCHER:
        table = [case for case in table if not case.is_long and case.words not in [[word] for word in ITS_OWN]]
        for word in ITS_OWN:
            yield f"the launcher's own: {word}", lambda word=word: ask_launcher(word)
        yield "the launcher's own: explain", explain_cases.launched
    for case in table:
        yield case.name, lambda case=case: run(program, case)


def ask_solvers(table):
    """Gives the texts of the table with which glpsol has a complaint, and those of which glpsol or cbc finds another optimum."""
    wrong, known = [], [*optima(), *lp_cases.optima(ROOT)]
    with concurrent.futures.ThreadPoolExecutor() as pool:
        if lp_solvers.has_glpsol():
            texts = lp_texts(table)
            complaints = pool.map(lp_solvers.glpsol_complaint, [text for _, text in texts])
            wrong += [f"{name}: glpsol: {said}" for (name, _), said in zip(texts, complaints) if said]
            print(f"{len(texts)} LP texts given to glpsol")
        for solver, is_here, optimum in (("glpsol", lp_solvers.has_glpsol(), lp_solvers.glpsol_optimum), ("cbc", lp_solvers.has_cbc(), lp_solvers.cbc_optimum)):
            if not is_here:
                print(f"what {solver} says of LP texts: left out, since there is no {solver} here")
                continue
            for (name, _, exact), told in zip(known, pool.map(optimum, [text for _, text, _ in known])):
                wrong += [] if told and lp_solvers.agrees(told, exact) else [f"{name}: {solver} finds {told}, and {exact} was reckoned"]
            print(f"{len(known)} optima found by {solver}")
    return wrong


def main(named):
    programs = [os.path.abspath(name) for name in named]
    if not programs:
        both = [BUILT / "gdp_cli", BUILT / "gdp_cli.by-rattle"]
        programs = [str(path) for path in both if path.exists()] + [LAUNCHER]
    table = cases(ROOT)
    passed = failed = 0
    for program in programs:
        for name, differs in rows(program, table):
            wrong = differs()
            if wrong:
                failed += 1
                print(f"end to end: {os.path.relpath(program, ROOT)}: {name}: {'; '.join(wrong)}")
            else:
                passed += 1
    wrong, count = certificate_cases.differences()
    print(f"{count} answers given to tools/check_certificate.py")
    unexplained, said = explain_cases.differences(table, programs[0])
    print(said)
    for line in wrong + unexplained + ask_solvers(table):
        failed += 1
        print(f"end to end: {line}")
    print(f"{passed} passed, {failed} failed")
    return 1 if failed else 0


if __name__ == "__main__":
    sys.exit(main(sys.argv[1:]))
