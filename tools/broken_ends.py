"""Tries what the program does where reading or writing fails in mid-stream, and what it reads of an input that it does not need.

    python3 tools/broken_ends.py [PROGRAM]

PROGRAM is ./spin where none is named. Each word of the program is tried, each with an example of its own.

- **Reading.** Standard input is a connection that is reset when the program has read the front of a text: nothing of it, 100 bytes,
  all but one byte, or all of it, but not its end. That ends with status 2 and the line `read fault`.
- **Writing.** Standard output is a file that may not grow past so many bytes: none, one, half of the text, all but one, and 512 where
  the text has more; or a pipe whose reader goes away after one page, where the text is long enough; or one that nobody reads. That
  ends with status 3 and the front of the text.
- **Not reading.** Standard input is a file. Words that are no command leave it where it was, and so does `gen`.

The last line is 'N passed, M failed', and the status 1 where one failed.
"""
import array
import fcntl
import os
import resource
import socket
import struct
import subprocess
import sys
import tempfile
import termios
import time
from collections import namedtuple

ROOT = os.path.dirname(os.path.dirname(os.path.realpath(__file__)))
MOST_BYTES = 512
MOST_SECONDS = 600
PAGE = 4096
# The example of each word that reads, and of a word that writes more than a page.
EXAMPLES = (
    "one_chip",
    "reinject_one_chip",
    "trace_four_chips",
    "image",
    "full_router",
    "check_wrong",
    "apps_full_chip",
)

# What is run, and what it writes where nothing fails.
Case = namedtuple("Case", "name words job text")


def read(path):
    with open(path, "rb") as file:
        return file.read()


def cases(program):
    """The examples; and longer texts of compile and of apps, with what the program writes of them where nothing fails."""
    for name in EXAMPLES:
        front = f"{ROOT}/examples/{name}"
        yield Case(name, read(f"{front}.words").decode().split(), read(f"{front}.json"), read(f"{front}.report"))
    steps = b"[" + b",".join([b'["run"]'] * 2000) + b"]"
    for name, words, job in (
        ("a full router", ["compile"], read(f"{ROOT}/examples/full_router.json")),
        ("2,000 runs", ["apps"], steps),
        ("one number", ["gen", "1"], b""),
    ):
        yield Case(name, words, job, subprocess.run([program, *words], input=job, stdout=subprocess.PIPE, check=True).stdout)


def unread(end):
    """How many bytes wait at an end of a connection."""
    count = array.array("i", [0])
    fcntl.ioctl(end, termios.FIONREAD, count)
    return count[0]


def broken_read(program, case, most):
    """What the program answers where its input breaks off after so many bytes."""
    with socket.create_server(("127.0.0.1", 0)) as door:
        far = socket.create_connection(door.getsockname())
        near = door.accept()[0]
        with subprocess.Popen([program, *case.words], stdin=near, stdout=subprocess.PIPE) as started:
            left = memoryview(case.job)[:most]
            far.sendall(left)
            until = time.monotonic() + MOST_SECONDS
            while unread(near) and time.monotonic() < until:
                time.sleep(0.001)
            # No lingering: the connection is reset, and the next read fails.
            far.setsockopt(socket.SOL_SOCKET, socket.SO_LINGER, struct.pack("ii", 1, 0))
            far.close()
            text = started.communicate(timeout=MOST_SECONDS)[0]
        near.close()
        return started.returncode, text


def broken_write(program, case, most):
    """What the program answers where its output may not grow past so many bytes."""
    with tempfile.TemporaryFile() as job, tempfile.TemporaryFile() as output:
        job.write(case.job)
        job.seek(0)
        # Python ignores the signal that comes with the refusal, and the program is to do so too.
        done = subprocess.run(
            [program, *case.words],
            stdin=job,
            stdout=output,
            check=False,
            timeout=MOST_SECONDS,
            preexec_fn=lambda: resource.setrlimit(resource.RLIMIT_FSIZE, (most, most)),
            restore_signals=False,
        )
        output.seek(0)
        return done.returncode, output.read()


def broken_pipe(program, case, most):
    """What the program answers where the reader of its output goes away after so many bytes; what was read then."""
    near, far = os.pipe()
    fcntl.fcntl(far, fcntl.F_SETPIPE_SZ, PAGE)
    with tempfile.TemporaryFile() as job:
        job.write(case.job)
        job.seek(0)
        if not most:
            os.close(near)
        # The signal that comes with a pipe that nobody reads is not ignored here: the program has to do that.
        with subprocess.Popen([program, *case.words], stdin=job, stdout=far) as started:
            os.close(far)
            text = b""
            while len(text) < most:
                piece = os.read(near, most - len(text))
                if not piece:
                    break
                text += piece
            if most:
                os.close(near)
            started.wait(timeout=MOST_SECONDS)
        return started.returncode, text


def without_input(program, words):
    """The status of the program with a file as its input, and how far the file was read."""
    with open(f"{ROOT}/examples/one_chip.json", "rb", buffering=0) as job:
        done = subprocess.run([program, *words], stdin=job, stdout=subprocess.DEVNULL, check=False, timeout=MOST_SECONDS)
        return done.returncode, job.tell()


def trials(case):
    """What is tried of a case: the trial, the number of bytes, and what is wanted."""
    size = len(case.text)
    if case.job:
        for most in sorted({0, min(100, len(case.job)), len(case.job) - 1, len(case.job)}):
            yield broken_read, most, (2, b"read fault\n")
    for most in sorted({0, 1, size // 2, min(size - 1, MOST_BYTES), size - 1}):
        yield broken_write, most, (3, case.text[:most])
    # A pipe takes a page that nobody has read: so the text has to be longer than two.
    for most in (0, PAGE) if size > 3 * PAGE else (0,):
        yield broken_pipe, most, (3, case.text[:most])


def main():
    program = os.path.realpath(sys.argv[1] if len(sys.argv) > 1 else f"{ROOT}/spin")
    passed = failed = 0
    for case in cases(program):
        for tried, most, wanted in trials(case):
            given = tried(program, case, most)
            if given == wanted:
                passed += 1
            else:
                failed += 1
                where = f"{tried.__name__} after {most} bytes, {' '.join(case.words)} of {case.name}"
                print(f"FAILED: {where}: status {given[0]} and {given[1][:80]!r}, and not {wanted[0]} and {wanted[1][:80]!r}")
    for words, status in (((), 1), (("jump",), 1), (("gen", "07"), 1), (("run", "run"), 1), (("gen", "7"), 0)):
        ended = without_input(program, words)
        if ended == (status, 0):
            passed += 1
        else:
            failed += 1
            print(f"FAILED: {' '.join(words)!r} with an input: status {ended[0]}, and {ended[1]} bytes read, and not {status} and none")
    print(f"{passed} passed, {failed} failed")
    return 1 if failed else 0


if __name__ == "__main__":
    sys.exit(main())
