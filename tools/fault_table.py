"""Tries what is answered to jobs with faults, and to jobs that look like it and have none.

    python3 tools/fault_table.py [PROGRAM]

Each job of examples/faults/faults.json is given to `PROGRAM run` and `PROGRAM reinject`, each request of
examples/faults/requests.json to `PROGRAM check`, and each list of steps of examples/faults/steps.json to `PROGRAM apps`; and so are
those that this script makes because they are too long or too many to be written down. PROGRAM is ./spin where none is named.
Where the table has a line, the bytes written are to be that line and a line feed. The status is to be the one of the table, and 4
where it has none. Each mismatch is printed. The last line is 'N passed, M failed', and the status 1 where one failed.

The lines were worked out by hand from the formats, and not taken from what a program wrote.
"""
import json
import os
import subprocess
import sys

ROOT = os.path.dirname(os.path.dirname(os.path.realpath(__file__)))

BAD_JOB = 4

# the limits of docs/formats.md
MOST_BYTES = 16777216
MOST_VERTICES, MOST_NETS, MOST_PACKETS, MOST_STEPS = 16384, 4096, 65536, 65535


def written_cases(name, member):
    """Those of a file: what each shows, the bytes of the job, request or steps, the line and the status."""
    with open(f"{ROOT}/examples/faults/{name}", encoding="utf-8") as table:
        for case in json.load(table):
            yield case["why"], case[member].encode(), case.get("line"), case.get("status", BAD_JOB)


def job_cases():
    yield from written_cases("faults.json", "job")


def request_cases():
    yield from written_cases("requests.json", "request")


def long_request_cases():
    """A request with as many numbers in its image as 16,777,216 bytes have room for, and one that is a byte longer."""
    with open(f"{ROOT}/examples/one_chip.json", encoding="utf-8") as example:
        front = '{"job":%s,"trees":[[]],"image":[' % example.read().rstrip()
    zeros = (MOST_BYTES - len(front) - 3) // 2
    longest = f"{front}0{',0' * zeros}]}}".encode().ljust(MOST_BYTES)
    yield "more than eight million bytes, and no image", longest, "bad image 0", 0
    yield "one byte more, a blank", longest + b" ", "bad job: too long", BAD_JOB
    yield "the last of them is no byte", longest.replace(b",0]", b",a]"), "bad job: not json", BAD_JOB
    last = f"{front}0{',0' * (zeros - 2)},256]}}".encode()
    yield "the last of them is above 255", last, f"bad job: range in.image[{zeros - 1}]", BAD_JOB


# The image of examples/one_chip.json, and where each of its fields begins.
IMAGE = b"SPNT" + bytes([1, 1, 1, 0, 1, 0, 0, 0, 1, 0, 0, 0, 0, 0, 255, 255, 255, 255, 0, 1, 0, 0])
FIELDS = (0, 4, 5, 6, 7, 8, 10, 11, 12, 14, 18, 22)


def image_cases():
    """Each front of an image stops in a field that is not whole, and that field is the fault; and each of its first letters spoiled.

    (Each field with a number that is not allowed stands in requests.json.)
    """
    with open(f"{ROOT}/examples/one_chip.json", encoding="utf-8") as example:
        front = '{"job":%s,"trees":[[]],"image":' % example.read().rstrip()

    def asked(image):
        return f"{front}{list(image)}}}".encode()

    for length in range(len(IMAGE)):
        place = max(field for field in FIELDS if field <= length)
        yield f"the first {length} bytes of an image", asked(IMAGE[:length]), f"bad image {place}", 0
    yield "all bytes of the image", asked(IMAGE), "right", 0
    for place in range(4):
        spoiled = bytes(byte ^ (32 if i == place else 0) for i, byte in enumerate(IMAGE))
        yield f"another letter at {place}", asked(spoiled), "bad image 0", 0


def step_cases():
    yield from written_cases("steps.json", "steps")


def many_step_cases():
    """As many steps as may be, and one more, which is told before any fault of a step."""
    run = '["run"]'
    most = MOST_STEPS
    yield "65,535 runs", f"[{run}{f',{run}' * (most - 1)}]".encode(), "\n".join(["run"] * most), 0
    yield "the last of 65,535 steps is none", f"[{f'{run},' * (most - 1)}0]".encode(), f"bad job: shape job[{most - 1}]", BAD_JOB
    yield "65,536 runs", f"[{run}{f',{run}' * most}]".encode(), f"bad job: too many job {most + 1}", BAD_JOB
    yield "70,000 items that are no steps", f"[0{',0' * 69999}]".encode(), "bad job: too many job 70000", BAD_JOB


def prefix_cases():
    """Each proper prefix of a job is no JSON, since the job ends with the bracket that closes it."""
    with open(f"{ROOT}/examples/one_chip.json", "rb") as example:
        job = example.read().rstrip()
    for length in range(len(job)):
        yield f"the first {length} bytes of examples/one_chip.json", job[:length], "bad job: not json", BAD_JOB
    yield "all bytes of examples/one_chip.json", job, None, 0


def byte_cases():
    """Bytes that are no text of UTF-8."""
    job = b'{"version":1,"machine":{"width":1,"height":1},"graph":{"vertices":[],"nets":[]},"x":"%s"}'
    yield "two bytes that are one letter, in a member without meaning", job % b"\xc3\xa9", None, 0
    for wrong, why in (
        (b"\xff", "a byte that no letter has"),
        (b"\x80", "a byte that only goes on"),
        (b"\xc3", "a letter that is cut off"),
        (b"\xc0\xaf", "a letter in more bytes than it needs"),
        (b"\xed\xa0\x80", "half of a pair"),
        (b"\xf4\x90\x80\x80", "a letter past the last"),
    ):
        yield f"no UTF-8: {why}", job % wrong, "bad job: not json", BAD_JOB


def long_cases():
    """At most 16,777,216 bytes are read; of longer ones nothing is said but that."""
    with open(f"{ROOT}/examples/one_chip.json", "rb") as example:
        job = example.read().rstrip()
    yield "as many bytes as may be, most of them blanks", job.ljust(MOST_BYTES), None, 0
    yield "one byte more, a blank", job.ljust(MOST_BYTES + 1), "bad job: too long", BAD_JOB
    yield "one byte too many, and no JSON", b"[" * (MOST_BYTES + 1), "bad job: too long", BAD_JOB
    yield "as many bytes as may be, and no JSON", b"[" * MOST_BYTES, "bad job: not json", BAD_JOB


def job_of(vertices, nets, run):
    graph = '{"vertices":%s,"nets":%s}' % (vertices, nets)
    return ('{"version":1,"machine":{"width":1,"height":1},"graph":%s,"run":%s}' % (graph, run)).encode()


def vertices_of(count):
    return "[%s]" % ",".join('{"name":"v%d"}' % i for i in range(count))


def list_cases():
    """Lists of as many items as may be, before a fault that comes later, and of one more, whose items have faults too."""
    some = '[{"name":"v0"}]'
    net = '{"name":"n%d","source":"v0","targets":["v0"]}'
    nets = "[%s]" % net % 0
    packet = '{"net":"n0","index":0}'

    def bad(why, job, line):
        return why, job, "bad job: " + line, BAD_JOB

    yield bad("16,384 vertices, then nets", job_of(vertices_of(MOST_VERTICES), "0", "{}"), "shape job.graph.nets")
    yield bad("16,385 vertices", job_of("[0" + ",0" * MOST_VERTICES + "]", "0", "{}"), "too many job.graph.vertices 16385")
    yield bad("20,000 vertices", job_of(vertices_of(20000), "0", "{}"), "too many job.graph.vertices 20000")
    all_nets = "[%s]" % ",".join(net % i for i in range(MOST_NETS))
    yield bad("4,096 nets, then run", job_of(some, all_nets, "0"), "shape job.run")
    yield bad("4,097 nets", job_of(some, "[0" + ",0" * MOST_NETS + "]", "0"), "too many job.graph.nets 4097")
    yield bad("5,000 nets", job_of(some, "[%s]" % ",".join(net % i for i in range(5000)), "0"), "too many job.graph.nets 5000")
    packets = ",".join([packet] * MOST_PACKETS)
    run = '{"packets":[%s],"events":0}'
    yield bad("65,536 packets, then events", job_of(some, nets, run % packets), "shape job.run.events")
    yield bad("65,537 packets", job_of(some, nets, run % ("0" + ",0" * MOST_PACKETS)), "too many job.run.packets 65537")
    yield bad("70,000 packets", job_of(some, nets, run % ",".join([packet] * 70000)), "too many job.run.packets 70000")
    late = job_of(some, nets, run % f"{packets[:-len(packet)]}0")
    yield bad("the last of 65,536 packets", late, "shape job.run.packets[65535]")
    twice = job_of(vertices_of(MOST_VERTICES)[:-1] + "]", "[]", "{}").replace(b'"v16383"', b'"v0"')
    yield bad("the last of 16,384 vertices has the first one's name", twice, "double name job.graph.vertices[16383].name")
    queue = '{"queue":65536}'
    yield bad("65536 * (7 + 250) places", job_of(vertices_of(250), "[]", queue), "too many job.run.queue 16842752")
    yield "65536 * (7 + 249) places are 16,777,216; the vertices have no room", job_of(vertices_of(249), "[]", queue), None, 5


def shown(bytes_given):
    text = bytes_given[:200].decode(errors="backslashreplace")
    return json.dumps(text) + (" .." if len(bytes_given) > 200 else "")


def is_answered(program, word, why, job, line, status):
    """Whether the program gives that line and status. It prints what it gives instead."""
    done = subprocess.run([program, word], input=job, capture_output=True)
    as_wanted = line is None or done.stdout == line.encode() + b"\n"
    if as_wanted and done.returncode == status:
        return True
    print(f"FAILED: {why}\n  job     {shown(job)}")
    print(f"  wanted  status {status}" + (f", {line}" if line else ""))
    print(f"  given   status {done.returncode}, {shown(done.stdout)}")
    return False


def main():
    program = sys.argv[1] if len(sys.argv) > 1 else f"{ROOT}/spin"
    passed = failed = 0
    for word, kinds in (
        ("run", (job_cases, prefix_cases, byte_cases, long_cases, list_cases)),
        # (what `reinject` reads is read as for `run`)
        ("reinject", (job_cases,)),
        ("check", (request_cases, image_cases, long_request_cases)),
        ("apps", (step_cases, many_step_cases)),
    ):
        for case in (case for cases in kinds for case in cases()):
            if is_answered(program, word, *case):
                passed += 1
            else:
                failed += 1
    print(f"{passed} passed, {failed} failed")
    return 1 if failed else 0


if __name__ == "__main__":
    sys.exit(main())
