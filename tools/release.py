"""Makes dist/ for people who have no toolchain: the compiled program, a wheel of the package that carries it, and checksums.

    python3 tools/release.py            dist/ of this clone
    python3 tools/release.py --try      the same in a folder of its own, installed and run where there is no toolchain
    python3 tools/release.py --tests    the package as `pip install ./python` installs it, with its tests
    python3 tools/release.py --tag      a local tag, as v0.2.0, on the commit from which dist/ was made

The program is the one that `rt ci` compiled of what it proved, where .ci/run has just left that here and the sources are the same.
Else it is that of the launcher, which compiles it where that is due, and keeps its checks where the gate has not proved the sources.
The wheel says which, and which sources, commit and toolchain it was compiled from (`kulzobad --version`). --try installs the wheel into
an empty virtual environment, with a path on which nothing of the toolchain lies and no network, and runs examples, whose bytes have to
be those that stand beside them. --tests runs python/tests from a folder without the package. Where pip or venv is missing both say so:
--try is skipped, and --tests runs the tests of the package as it stands. --tag wants a wheel of this version in dist/, made from this
commit without changes, and a part of CHANGELOG.md on it; it pushes nothing. Each ends with status 1 where something fails, and names the
tests that failed. What is skipped has a line SKIPPED, the tests of pages as `page`, and what asks for pip as `wheel`.
"""
import collections
import glob
import hashlib
import json
import os
import re
import shutil
import subprocess
import sys
import tempfile
import zipfile

ROOT = os.path.dirname(os.path.dirname(os.path.realpath(__file__)))
sys.path.insert(0, f"{ROOT}/python")
sys.path.insert(0, f"{ROOT}/tools")

import building  # noqa: E402
import proved  # noqa: E402

# The program needs a C library as new as that for which the toolchain links.
TAG = "py3-none-linux_x86_64"
APART = "the package is an installed one"
EXAMPLES = ("one_chip", "image", "reinject_fan_out", "trace_fan_out", "check_right", "apps_used_again", "long_table")


def output_of(words):
    """What a command writes; empty where it fails or is not there."""
    try:
        done = subprocess.run(words, cwd=ROOT, stdin=subprocess.DEVNULL, capture_output=True, text=True, check=False)
    except OSError:
        return ""
    return done.stdout.strip() if done.returncode == 0 else ""


def read(file):
    with open(file, "rb") as data:
        return data.read()


# Of each program its crate; words to which it has an answer, without input; and the answer's status.
PROGRAMS = {"spin": ("spin_mesh", ["gen", "0"], 0), "spin_tables": ("spin_tables", [], 4)}


def program_here(name="spin"):
    """The program that is packed, with what is said of its checks."""
    made = proved.proved_program(name)
    if made:
        return made, "left out: rt ci compiled what it proved"
    crate, words, status = PROGRAMS[name]
    # (the launcher would do with a build of these sources by another toolchain)
    proved.launcher.main(ROOT, crate, name)
    done = subprocess.run([f"{ROOT}/out/{name}", *words], stdin=subprocess.DEVNULL, stdout=subprocess.DEVNULL, check=False)
    if done.returncode != status:
        sys.exit(f"release: {name} ends with status {done.returncode}, and not {status}")
    with open(f"{ROOT}/out/{name}.sum", encoding="utf-8") as kept:
        return f"{ROOT}/out/{name}", kept.read().splitlines()[-1].partition(" ")[2]


def built_from(checks):
    """What is known of the program that is packed."""
    commit = output_of(["git", "rev-parse", "HEAD"])
    changed = output_of(["git", "status", "--porcelain", "--", "crates", "crates.txt", "tools/compile.py"])
    told = {"sources": proved.sum_now(), "toolchain": output_of(["rt", "version"]).split("\n")[0], "checks": checks}
    if commit:
        told["commit"] = commit + (" with changes" if changed else "")
    return told


def make(folder):
    """Writes the program, the wheel and the checksums into a folder, and gives the wheel's name."""
    program, checks = program_here()
    os.makedirs(folder, exist_ok=True)
    shutil.copy(program, f"{folder}/spin")
    told = json.dumps(built_from(checks), indent=1) + "\n"
    inside = [("kulzobad/compiled/built.json", told.encode()), ("kulzobad/compiled/spin", read(f"{folder}/spin"))]
    inside.append(("kulzobad/compiled/spin_tables", read(program_here("spin_tables")[0])))
    wheel = building.write_wheel(folder, TAG, more=inside)
    with open(f"{folder}/SHA256SUMS", "w", encoding="utf-8") as sums:
        sums.writelines(f"{hashlib.sha256(read(f'{folder}/{name}')).hexdigest()}  {name}\n" for name in sorted(("spin", wheel)))
    return wheel


def environment_in(room):
    """An empty virtual environment, and a pip that installs into it without a network; None where there is none of the two."""
    made = subprocess.run([sys.executable, "-m", "venv", "--without-pip", f"{room}/environment"], capture_output=True, check=False)
    python = f"{room}/environment/bin/python"
    pip = [sys.executable, "-m", "pip", "--python", python, "--disable-pip-version-check", "install", "--quiet", "--no-index", "--no-deps"]
    if made.returncode or subprocess.run([*pip[:5], "--version"], capture_output=True, check=False).returncode:
        print("SKIPPED wheel: nothing is installed, for pip or venv is missing, or pip is older than 22.3")
        return None
    return python, pip


def installed(pip, what):
    """Installs something; it says whether that was done."""
    done = subprocess.run([*pip, what], capture_output=True, text=True, check=False)
    if done.returncode:
        print(f"FAILED: pip install {what}\n{done.stdout}{done.stderr}")
    return done.returncode == 0


def bare(room):
    """The variables of an environment in which nothing of a toolchain is on the path."""
    return {"PATH": f"{room}/environment/bin", "HOME": room, "LANG": "C.UTF-8"}


def failures_of_release(room, wheel, python):
    """What goes wrong with the wheel once it is installed."""
    command = f"{os.path.dirname(python)}/kulzobad"

    def call(*words):
        return subprocess.run([command, *words], cwd=room, env=bare(room), stdin=subprocess.DEVNULL, capture_output=True, check=False)

    for name in EXAMPLES:
        example = f"{ROOT}/examples/{name}"
        word, wanted, status = read(f"{example}.words").decode().strip(), read(f"{example}.report"), int(read(f"{example}.status"))
        done = call(word, f"{example}.json")
        given = done.stderr.split(b"\n", 1)[0] + b"\n" if status else done.stdout
        if (done.returncode, given) != (status, wanted):
            yield f"kulzobad {word} of examples/{name}.json: status {done.returncode}, {given[:200]}, {done.stderr[:200]}"
    for words, status, part in (
        (("run", "/nowhere", "--json"), 2, b'"kind": "read fault"'), (("jump", "--json"), 64, b'"kind": "usage"'), (("help", "verify"), 0, b"example:"),
        (("completion", "bash"), 0, b"complete -o default -F _kulzobad kulzobad"), (("page", f"{ROOT}/examples/one_chip.json"), 0, b"</html>"),
    ):
        done = call(*words)
        if done.returncode != status or part not in done.stdout:
            yield f"kulzobad {' '.join(words)}: status {done.returncode}, {done.stdout[:200]}, {done.stderr[:200]}"
    with open(f"{room}/tables.csv", "w", encoding="utf-8") as rows:
        rows.write("x,y,key,mask,route\n0,0,0,0xffffffff,1\n0,0,1,0xffffffff,1\n")
    shorter = call("minimise", "tables.csv").stdout
    if shorter != b"x,y,key,mask,route\n0,0,0x00000000,0xfffffffe,0x000001\n":
        yield f"kulzobad minimise gives {shorter!r}"
    told, known = call("--version").stdout.decode(), built_from(program_here()[1])
    for line in (*(f"{name} {known[name]}" for name in ("sources", "toolchain", "checks")), "not proved on this machine"):
        if line not in told:
            yield f"kulzobad --version does not say {line!r}: {told}"
    sums = "".join(f"{hashlib.sha256(read(f'{room}/dist/{name}')).hexdigest()}  {name}\n" for name in sorted(("spin", wheel)))
    if read(f"{room}/dist/SHA256SUMS").decode() != sums:
        yield "SHA256SUMS has other sums than the files"


def try_release(room):
    """Makes a release, installs it, and runs it. It gives what fails."""
    wheel, found = make(f"{room}/dist"), environment_in(room)
    if found is None:
        return []
    python, pip = found
    return list(failures_of_release(room, wheel, python)) if installed(pip, f"{room}/dist/{wheel}") else ["the wheel can't be installed"]


def try_tests(room):
    """Installs the package as it stands, and runs its tests from a folder without it. It gives what fails."""
    environment = {**os.environ, "KULZOBAD_SPIN": os.environ.get("KULZOBAD_SPIN", f"{ROOT}/spin"), "PYTHONDONTWRITEBYTECODE": "1"}
    found = environment_in(room)
    if found is None:
        return tests_that_fail(sys.executable, f"{ROOT}/python", environment)
    python, pip = found
    if not installed(pip, f"{ROOT}/python"):
        return ["the package can't be installed"]
    os.makedirs(f"{room}/copy/python")
    for name in ("tests", "examples"):
        shutil.copytree(f"{ROOT}/python/{name}", f"{room}/copy/python/{name}", ignore=shutil.ignore_patterns("__pycache__"))
    for name in ("examples", "docs", "tools"):
        os.symlink(f"{ROOT}/{name}", f"{room}/copy/{name}")
    folder, ask = f"{room}/copy/python", "import kulzobad; print(kulzobad.__file__)"
    where = subprocess.run([python, "-c", ask], cwd=folder, env=environment, capture_output=True, text=True, check=False)
    if not where.stdout.startswith(f"{room}/environment/"):
        return [f"the package that is tested is {where.stdout or where.stderr}"]
    return tests_that_fail(python, folder, environment)


def tag():
    """Tags the commit from which the wheel in dist/ was made. It gives what stands against it."""
    version, commit = building.project()["project"]["version"], output_of(["git", "rev-parse", "HEAD"])
    name, wheel = f"v{version}", f"{ROOT}/dist/{building.base_name()}-{TAG}.whl"
    with open(f"{ROOT}/CHANGELOG.md", encoding="utf-8") as text:
        if f"## {version}" not in (line.partition(",")[0].strip() for line in text):
            return [f"CHANGELOG.md has no part on {version}"]
    if not os.path.isfile(wheel):
        return [f"dist/ has no wheel of {version}: make it by tools/release.py"]
    with zipfile.ZipFile(wheel) as files:
        made_from = json.loads(files.read("kulzobad/compiled/built.json")).get("commit", "no commit")
    if made_from != commit or output_of(["git", "status", "--porcelain"]):
        return [f"the wheel is of {made_from}, and here is {commit}, or something that is not committed"]
    if subprocess.run(["git", "tag", "-a", name, "-m", f"kulzobad {version}", commit], cwd=ROOT, check=False).returncode:
        return [f"there is a tag {name} already, or git makes none"]
    print(f"{name} {commit}")
    return []


def tests_that_fail(python, folder, environment):
    """Runs the tests of a folder, and gives the names of those that fail."""
    done = subprocess.run([python, "-m", "unittest", "-v"], cwd=folder, env=environment, stderr=subprocess.PIPE, text=True, check=False)
    sys.stderr.write("".join(it for it in done.stderr.splitlines(True) if not re.search(r"\.\.\. (ok|skipped .*)$", it)))
    skipped = collections.Counter(re.findall(r"\.\.\. skipped ['\"](.*)['\"]$", done.stderr, re.M))
    for why, count in skipped.items():
        # (what asks for the package as it stands is run apart)
        if why != APART:
            print(f"SKIPPED {'page' if 'Chromium' in why else 'tests'}: {count} tests: {why}")
    named = re.findall(r"^(?:FAIL|ERROR): (.*)$", done.stderr, re.M)
    return named or (["a test of the installed package fails"] if done.returncode else [])


def main(words):
    if not words:
        wheel = make(f"{ROOT}/dist")
        print(f"dist/spin\ndist/{wheel}\ndist/SHA256SUMS")
        for old in glob.glob(f"{ROOT}/dist/*.whl"):
            if os.path.basename(old) != wheel:
                print(f"{os.path.relpath(old, ROOT)} is of another version")
        return 0
    failures = []
    for word in words:
        if word == "--tag":
            failures += tag()
            continue
        with tempfile.TemporaryDirectory(prefix="release-") as room:
            failures += {"--try": try_release, "--tests": try_tests}[word](os.path.realpath(room))
    for failure in failures:
        print(f"FAILED: {failure}")
    return 1 if failures else 0


if __name__ == "__main__":
    if not set(sys.argv[1:]) <= {"--try", "--tests", "--tag"}:
        sys.exit(__doc__)
    sys.exit(main(sys.argv[1:]))
