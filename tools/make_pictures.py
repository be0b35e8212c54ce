"""Makes the pictures of docs/pictures anew, or compares them with what is made.

    python3 tools/make_pictures.py [--check] [PROGRAM]

The job is that of docs/pictures/board.json: a board of 48 chips with some dead links, 200 vertices, 300 nets and 600 packets.
PROGRAM is ./spin where none is named. With --check nothing is written, and the status is 1 where a picture differs.
"""
import os
import subprocess
import sys
import tempfile

ROOT = os.path.dirname(os.path.dirname(os.path.realpath(__file__)))
PICTURES = {"mesh": ("tables", []), "tree": ("tables", ["--net", "n53"]), "rows": ("tables", []), "copies": ("run", [])}


def main(words):
    is_check = "--check" in words
    program = next((it for it in words if not it.startswith("--")), f"{ROOT}/spin")
    job = f"{ROOT}/docs/pictures/board.json"
    differing = []
    for kind, (word, more) in PICTURES.items():
        with tempfile.NamedTemporaryFile() as output, open(job, "rb") as text:
            subprocess.run([program, word], stdin=text, stdout=output, check=True)
            made = subprocess.run([sys.executable, f"{ROOT}/tools/picture.py", kind, job, output.name, *more], stdout=subprocess.PIPE, check=True).stdout
        file = f"{ROOT}/docs/pictures/{kind}.svg"
        if is_check:
            with open(file, "rb") as kept:
                differing += [file] if kept.read() != made else []
        else:
            with open(file, "wb") as kept:
                kept.write(made)
    for file in differing:
        print(f"{file} is not what is made of docs/pictures/board.json")
    return 1 if differing else 0


if __name__ == "__main__":
    sys.exit(main(sys.argv[1:]))
