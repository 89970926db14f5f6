"""Tries `./tps` where the program isn't built, and `./build`.

The answers of `./tps` are the built program's, with one line on standard error that says where they come from. `./build` is tried with a
script in place of rt.
"""
import concurrent.futures
import os
import pathlib
import shutil
import subprocess
import tempfile

UNBUILT = b"tps: not built yet, so this answer comes from the sources without their proofs; ./build proves and builds\n"
DRINKER = "examples/drinker.proof"
# A name, the words, and the file or the bytes of the input.
CALLS = [
    ("an answer of status 0", ["check"], DRINKER),
    ("an answer of status 1", ["check"], "examples/quantifiers-swapped.proof"),
    ("an answer of status 3", ["check"], b"(PROOF"),
    ("words out of form", ["prove", "--weight", "06"], b""),
    ("an input by pipe", ["prove"], b"EXISTS x FORALL y. P(OI) x IMPLIES P y\n"),
]
# What stands in for rt, and why the launcher says that there is no answer.
LIMITS = [
    ("a limit of the sources' run", "printf 'checked: no-answer: too long\\nrun=no-answer proved=no\\n' >&2; exit 6", b"too long"),
    ("rt that fails", "echo 'run=none proved=no' >&2; exit 2", b"run=none proved=no"),
]


def copy_of(top, room):
    """A copy of the sources, without what was built."""
    copy = pathlib.Path(room) / "copy"
    shutil.copytree(top / "crates", copy / "crates", ignore=shutil.ignore_patterns("out", "must-fail"))
    shutil.copytree(top / "examples", copy / "examples")
    for name in ["tps", "build", "crates.txt"]:
        shutil.copy2(top / name, copy / name)
    return copy


def run(command, words, given, environment=None):
    """How the command ends on the input, by a file or by a pipe."""
    how = {"stdout": subprocess.PIPE, "stderr": subprocess.PIPE, "timeout": 600, "env": environment}
    if isinstance(given, bytes):
        return subprocess.run([command, *words], input=given, **how)
    with given.open("rb") as file:
        return subprocess.run([command, *words], stdin=file, **how)


def tried(top, copy, program, words, given):
    given = given if isinstance(given, bytes) else top / given
    wanted, done = run(program, words, given), run(copy / "tps", words, given)
    if (done.returncode, done.stdout) != (wanted.returncode, wanted.stdout):
        return f"ended with {done.returncode} and wrote {done.stdout[:200]!r}, the program with {wanted.returncode} and {wanted.stdout[:200]!r}"
    return None if done.stderr == UNBUILT else f"wrote to standard error {done.stderr[:300]!r}"


def with_rt(command, words, room, script):
    """How the command ends where this script stands in for rt."""
    folder = pathlib.Path(tempfile.mkdtemp(dir=room))
    (folder / "rt").write_text(f"#!/bin/sh\n{script}\n")
    (folder / "rt").chmod(0o755)
    return run(command, words, b"", {**os.environ, "PATH": f"{folder}:{os.environ['PATH']}"})


def path_without_rt(room):
    """A path with no more than what the launcher takes of the system before it asks for rt."""
    folder = pathlib.Path(tempfile.mkdtemp(dir=room))
    for name in ["bash", "dirname", "find"]:
        (folder / name).symlink_to(shutil.which(name))
    return {"PATH": str(folder)}


def without_rt(copy, room):
    """Why the launcher doesn't refuse where no rt is on the path, or None."""
    done = run(copy / "tps", ["check"], b"", path_without_rt(room))
    said = b"tps: the program isn't built, and Rattle's command rt isn't on the path to run its sources\n"
    return None if (done.returncode, done.stdout, done.stderr) == (70, b"", said) else f"ended with {done.returncode} and wrote {done.stderr[:300]!r}"


def built_copy(copy, program, room):
    """Why a built program isn't run, or a newer source goes unseen, or None."""
    place = copy / "crates" / "tps_cli" / "out" / "tps_cli"
    place.parent.mkdir()
    shutil.copy(program, place)
    done = run(copy / "tps", ["check"], copy / DRINKER)
    if (done.returncode, done.stdout, done.stderr) != (0, b"ACCEPTED\n", b""):
        return f"ended with {done.returncode} and wrote {done.stderr[:300]!r}"
    os.utime(copy / "crates" / "tps_cli" / "src" / "run.rt", (1 << 32, 1 << 32))
    done = run(copy / "tps", ["check"], b"", path_without_rt(room))
    return None if done.returncode == 70 else "a newer source went unseen"


def built_anew(copy, room):
    """Why the build doesn't say how far it is and where the program is, or None."""
    script = 'if [ "$1" = run ]; then mkdir -p out && cp /bin/true out/tps_cli; exit 2; fi'
    done = with_rt(copy / "build", [], room, script)
    lines = done.stdout.decode().splitlines()
    program = copy / "crates" / "tps_cli" / "out" / "tps_cli"
    count = len(lines) - 2
    wanted = [f" ({number} of {count}, 0 min)" for number in range(1, count + 1)]
    said = [line.removeprefix("proved ").partition(" ")[2] for line in lines[:count]]
    last = [f"The program is {program}. This installs it:", f"  install -m 755 {program} ~/.local/bin/tps"]
    right = done.returncode == 0 and [f" {line}" for line in said] == wanted and lines[count - 1].startswith("proved tps_cli ") and lines[count:] == last
    shutil.rmtree(program.parent, ignore_errors=True)
    return None if right else f"ended with {done.returncode} and wrote {done.stdout[-400:]!r}"


def not_built(copy, room):
    """Why the build doesn't tell what a crate that isn't proved said, or None."""
    done = with_rt(copy / "build", [], room, "echo 'lib.rt: not proved'; exit 1")
    wanted = (70, b"lib.rt: not proved\nnot proved: tps_io\n")
    return None if (done.returncode, done.stdout) == wanted else f"ended with {done.returncode} and wrote {done.stdout[:400]!r}"


def launcher_results(top, program):
    """Each case of the launcher, with why it failed or None."""
    with tempfile.TemporaryDirectory() as room, concurrent.futures.ThreadPoolExecutor(os.cpu_count()) as pool:
        copy = copy_of(top, room)
        waiting = [(name, pool.submit(tried, top, copy, program, words, given)) for name, words, given in CALLS]
        results = [(f"launcher: {name}", done.result()) for name, done in waiting]
        for name, script, said in LIMITS:
            done = with_rt(copy / "tps", ["check"], room, script)
            told = UNBUILT + b"tps: no answer from the sources (" + said + b"); ./build makes the program, which has no such limit\n"
            right = (done.returncode, done.stdout, done.stderr) == (70, b"", told)
            results.append((f"launcher: {name}", None if right else f"ended with {done.returncode} and wrote {done.stderr[:300]!r}"))
        results.append(("build: each crate, and the program's place", built_anew(copy, room)))
        results.append(("build: a crate that isn't proved", not_built(copy, room)))
        results.append(("launcher: no rt", without_rt(copy, room)))
        results.append(("launcher: a built program, and a newer source", built_copy(copy, program, room)))
        return results
