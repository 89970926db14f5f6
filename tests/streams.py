"""Runs of the built program whose input or output fails, comes in pieces, or is cut."""
import os
import resource
import signal
import subprocess
import tempfile

PROOF = b"(PROOF 1 (A (A OR (V p O)) (A NOT (V p O))) (OR LEAF (NOT LEAF)) ((1 2)))"
COMMANDS = [["prove"], ["check"], ["translate"], ["verify"], ["show"], ["etps"]]


def unlike(done, status, output):
    """How the run ended otherwise, or None."""
    if (done.returncode, done.stdout) == (status, output):
        return None
    return f"ended with {done.returncode} and wrote {done.stdout[:200]!r}"


def with_unreadable_input(program, words):
    """A run whose every read fails, since its input is a folder."""
    folder = os.open("/", os.O_RDONLY)
    try:
        return subprocess.run([program, *words], stdin=folder, stdout=subprocess.PIPE, timeout=120)
    finally:
        os.close(folder)


def onto_full_device(program):
    with open("/dev/full", "wb", buffering=0) as full:
        done = subprocess.run([program, "check"], input=PROOF, stdout=full, timeout=120)
    return None if done.returncode == 6 else f"ended with {done.returncode}"


def into_short_file(program, room):
    """A run whose output file may have so many bytes alone."""
    def bounded():
        signal.signal(signal.SIGXFSZ, signal.SIG_IGN)
        resource.setrlimit(resource.RLIMIT_FSIZE, (room, room))

    with tempfile.TemporaryFile() as written:
        done = subprocess.run([program, "check"], input=PROOF, stdout=written, preexec_fn=bounded, timeout=120)
        written.seek(0)
        done.stdout = written.read()
    return unlike(done, 6, b"ACCEPTED\n"[:room])


def by_pieces(program, size):
    """A run whose input comes through a pipe, so many bytes at a time."""
    running = subprocess.Popen([program, "check"], stdin=subprocess.PIPE, stdout=subprocess.PIPE, bufsize=0)
    for start in range(0, len(PROOF), size):
        running.stdin.write(PROOF[start:start + size])
    output, _ = running.communicate(timeout=120)
    return unlike(subprocess.CompletedProcess([], running.returncode, output), 0, b"ACCEPTED\n")


def cut(program, command):
    """Why some prefix of the text isn't refused, or None."""
    for end in range(len(PROOF)):
        done = subprocess.run([program, command], input=PROOF[:end], stdout=subprocess.PIPE, timeout=120)
        if unlike(done, 3, b""):
            return f"{end} bytes: {unlike(done, 3, b'')}"
    return None


def stream_results(program):
    """The runs, each with why it failed or None."""
    for words in COMMANDS:
        yield f"{words[0]}, reading fails", unlike(with_unreadable_input(program, words), 5, b"")
    yield "no command, reading fails", unlike(with_unreadable_input(program, ["chec"]), 2, b"")
    unread = b"CHAIN 1\nLEAVES 4\nPAIRS 2\nOCCURRENCES 1\nWEIGHT 1\nACCEPTED\nVERIFIED\n"
    yield "generate reads nothing", unlike(with_unreadable_input(program, ["generate", "1"]), 0, unread)
    yield "writing fails", onto_full_device(program)
    for room in [1, 3, 8]:
        yield f"writing fails after {room} bytes", into_short_file(program, room)
    for size in [1, 10]:
        yield f"input by {size} bytes", by_pieces(program, size)
    for command in ["check", "translate"]:
        yield f"{command}, each prefix of a text", cut(program, command)
