"""How much stack each word needs: the least limit, in KB, under which the program ends with status 0.

    python3 bench/stack.py [PROGRAM]      out/spin where no program is given

`./spin` must have built the program. Each word gets an example, and the same with a member that is nested as deep as is read.
"""
import json
import os
import resource
import subprocess
import sys

ROOT = os.path.dirname(os.path.dirname(os.path.realpath(__file__)))
MOST = 1024
DEPTH = 127


def nested(text, above):
    """A text that begins with an object, with a member that is nested as deep as is read below so many levels of others."""
    deep = DEPTH - above
    return text.replace("{", '{"not_a_member":' + "[" * deep + "]" * deep + ",", 1)


def is_enough(program, word, text, kilobytes):
    def limit():
        resource.setrlimit(resource.RLIMIT_STACK, (kilobytes * 1024, kilobytes * 1024))

    return subprocess.run([program, word], input=text.encode(), stdout=subprocess.DEVNULL, stderr=subprocess.DEVNULL, preexec_fn=limit, env={}).returncode == 0


def least(program, word, text):
    low, high = 16, MOST
    while low < high:
        middle = (low + high) // 2
        low, high = (low, middle) if is_enough(program, word, text, middle) else (middle + 1, high)
    return low


def example(name):
    with open(f"{ROOT}/examples/{name}.json", encoding="utf-8") as text:
        return text.read()


def main(words):
    program = words[0] if words else f"{ROOT}/out/spin"
    job = example("one_chip")
    step = json.dumps([["load", 1, json.loads(job)], ["run"]])
    texts = {word: (job, 1) for word in ("tables", "compile", "run", "reinject", "trace")}
    texts = {**texts, "apps": (step, 3), "check": (example("check_right"), 1)}
    for word, (text, above) in texts.items():
        print(f"{word:10}{least(program, word, text):5} KB{least(program, word, nested(text, above)):6} KB nested {DEPTH} deep")
    return 0


if __name__ == "__main__":
    sys.exit(main(sys.argv[1:]))
