#!/usr/bin/env python3
"""Makes the proofs of a crate shorter where antt finds by itself what a body spells out.

    tools/shorter_proofs.py bodies CRATE       from the top of the repository, with the libraries below the crate built
    tools/shorter_proofs.py folds CRATE        (tools/take_libraries.py); about a second of a processor for each try
    tools/shorter_proofs.py inline CRATE
    tools/shorter_proofs.py blocks CRATE
    tools/shorter_proofs.py imports CRATE..    needs no prover
    tools/shorter_proofs.py common CRATE..     neither do these
    tools/shorter_proofs.py unused CRATE..

`bodies` looks at each lemma. Beside it it writes others of the same statement, with fewer lines: `grind` with the lemmas that a body of two
lines and more cites, with their arguments where these are known at the head of the body and by their bare names; `search` with them; the
same call with `_` for the arguments that antt finds; one of these in place of several equations, or of a body with the lemmas below its
`where`; a body without a `let` that nothing names; and one that does without a lemma that no other one uses, with what that one cites. One
`rt check` of the crate tries all of them, since one that fails keeps no other from being checked. Those that are not refused take the
place of the first ones. Then the crate is checked again, and bodies that are refused come back: those of lemmas that no check came to,
and of values on which a type rests. `folds` looks at lemmas that three equations or fewer use, in the crate's files: it tries these uses
with what the lemma cites in its place, and where all of them pass, `unused` drops it. `inline` does the same with the lemma's body in its
place, where that is short. `blocks` does what `bodies` does for the parts of a body that stays: a case, a field, a `let`. `imports` drops
the names that a file of proofs does not use, adds those of the tactics, and writes those of one folder on one line. `common` lets each file
take what it names outside of its crate's proofs from one module, proofs/Common.antt. `unused` drops the lemmas that neither an answer, a
definition, the code nor a promise needs.

No verdict rests on it: `rt ci` proves what it leaves.
"""
import collections
import dataclasses
import functools
import glob
import os
import re
import subprocess
import sys

WIDTH = 200
# How long a text may be that stands in place of a lemma's name.
SHORT = 80
# How often tries are checked again where some were refused.
ROUNDS = 5
KIT = "/opt/rattle/rlibs"
WORD = re.compile(r"[^\s(){}\[\],;]+")
# What begins and ends a word in a proof.
BEFORE, BEHIND = r"(?<![^\s(\[{,;!])", r"(?=[\s)\]},;.]|$)"
STOPS = {"∙", "in", "↦", "|", "=", "→", "×", "⊎", "let", ":", "≡", "<", "≤", "+", "-", "*", "==", "&&", "||", "++", "∷", "elim", "λ"}
TACTICS = {
    "arith": "use Rattle.std.proofs.Common.{arith}",
    "rules": "use Rattle.std.proofs.Common.{rules}",
}


def read(file):
    with open(file, encoding="utf-8") as text:
        return text.read().split("\n")


def write(file, lines):
    with open(file, "w", encoding="utf-8") as text:
        text.write("\n".join(lines))


def files_of(crate):
    return sorted(glob.glob(f"crates/{crate}/proofs/**/*.antt", recursive=True))


def indent(line):
    return len(line) - len(line.lstrip())


@dataclasses.dataclass
class Lemma:
    """A lemma of a file: its name, how far it is set in, the lines of its statement, of each of its equations, of its `where`, and of the
    lemmas below that, and its end.
    """

    name: str
    depth: int
    begin: int
    stated: int
    equations: list
    where: int | None
    end: int
    local: list


def lemmas_in(lines, at=0, stop=None):
    """The lemmas that stand in these lines, those below a `where` with the lemma to which they belong."""
    found, stop = [], len(lines) if stop is None else stop
    while at < stop:
        head = re.match(r"^( *)(?:pub )?([^\s(){}:,.;=]+) : ", lines[at])
        if not head or head[2] in ("let", "in", "module"):
            at += 1
            continue
        depth, name, end = len(head[1]), re.escape(head[2]), at + 1
        closing = re.compile(rf"^ {{{depth}}}[\])}}]")

        def is_inside(line, depth=depth):
            return line.strip() and indent(line) > depth

        while end < stop and is_inside(lines[end]):
            end += 1
        begin, stated, equations, where = at, end, [], None
        while end < stop and re.match(rf"^ {{{depth}}}(unfolding|by_parts|measure)\b", lines[end]):
            end += 1
        while where is None and end < stop and re.match(rf"^ {{{depth}}}{name}( .*)?$", lines[end]):
            first, end = end, end + 1
            while end < stop and (is_inside(lines[end]) or closing.match(lines[end])) and lines[end].strip() != "where":
                end += 1
            equations.append((first, end))
            where = end if end < stop and lines[end].strip() == "where" else None
        if where is not None:
            end = where + 1
            while end < stop and not (lines[end].strip() and indent(lines[end]) <= depth):
                end += 1
            while not lines[end - 1].strip():
                end -= 1
        if equations:
            found.append(Lemma(head[2], depth, begin, stated, equations, where, end, lemmas_in(lines, where + 1, end) if where else []))
        at = max(end, at + 1)
    return found


def cited_names(lines):
    """The names of lemmas that a file imports."""
    found = set()
    for line in lines:
        for whole in map(passed_on, items_of(line)):
            name, is_common = exported(whole), whole.startswith("Rattle.std.proofs.Common.")
            if is_common and re.match(r"^[a-z_]+([-_][a-z_-]+)+$", name) or ".proofs" in whole and not is_common:
                found.add(name)
    return found


def bound_in(body):
    """The names that a body binds: by λ, and in the patterns of its cases."""
    heads = re.findall(r"λ (.*?)\. ", body) + re.findall(r"(?:^|\s)\| (.*?) ↦", body)
    return {name for head in heads for name in re.findall(r"[^\s(){}:,]+", head)}


def without_lets(body):
    """The definitions with which a body begins, by name, and what is behind them."""
    lets, rest = [], body.strip()
    while rest.startswith("let "):
        depth, level, end = 0, 1, None
        for mark in re.finditer(r"[(\[{]|[)\]}]|(?<![^\s(])let(?!\S)|(?<!\S)in(?!\S)", rest[4:]):
            depth += {"(": 1, "[": 1, "{": 1, ")": -1, "]": -1, "}": -1}.get(mark[0], 0)
            if depth == 0:
                level += {"let": 1, "in": -1}.get(mark[0], 0)
            if level == 0:
                end = 4 + mark.start()
                break
        named = re.match(r"(\S+)(?: : (.*?))? = (.*)$", rest[4:end].strip(), re.S) if end else None
        if not named:
            break
        lets.append((named[1], named[3].strip()))
        rest = rest[end + 2 :].strip()
    return lets, rest


def put_in(text, values):
    for name, value in values.items():
        text = re.sub(f"{BEFORE}{re.escape(name)}{BEHIND}", lambda _, it=value: f"({it})", text)
    return text


def end_of_part(text, at):
    """Where the part of a term ends that begins here: a word, or what stands in brackets, with its fields."""
    if text[at] not in "([{":
        word = WORD.match(text, at)
        return word.end() if word else None
    depth = 0
    for end in range(at, len(text)):
        depth += {"(": 1, "[": 1, "{": 1, ")": -1, "]": -1, "}": -1}.get(text[end], 0)
        if depth == 0:
            field = re.compile(r"(\.[\w'-]+)+").match(text, end + 1)
            return field.end() if field else end + 1
    return None


def is_closed(text):
    """Whether each bracket of a text is closed."""
    return [text.count(it) for it in "([{"] == [text.count(it) for it in ")]}"]


def calls_in(text, lemmas):
    """The terms whose head is one of these lemmas, but those within another."""
    found, done = [], 0
    for head in re.finditer(rf"{BEFORE}[^\s(){{}}\[\],;]+", text):
        if head[0] not in lemmas or head.start() < done:
            continue
        end = head.end()
        while end + 1 < len(text) and text[end] == " " and text[end + 1] not in ")]},;[":
            word = WORD.match(text, end + 1)
            part = None if word and word[0] in STOPS else end_of_part(text, end + 1)
            if part is None:
                break
            end = part
        found.append(text[head.start() : end])
        done = end
    return found


def facts_of(body, lemmas, own):
    """What `grind` gets in place of a body: the lemmas that it cites, with their arguments where nothing in the body binds these."""
    flat = re.sub(r"\s+", " ", re.sub(r"--.*", "", body)).strip()
    lets, rest = without_lets(flat)
    values = {}
    for name, value in lets:
        whole = put_in(value, values)
        if len(whole) < 2 * WIDTH:
            values[name] = whole
    bound = bound_in(flat) | (set(re.findall(r"(?<![^\s(])let (\S+)", flat)) - set(values))
    closed, bare, texts = [], [], [put_in(rest, values), *reversed(values.values())]
    while texts:
        for call in calls_in(texts.pop(), lemmas | {own}):
            head = WORD.match(call)[0]
            words = {it.split(".")[0] for it in WORD.findall(call)}
            if words & bound or "_" in words or "λ" in call or " let " in call or "elim" in call:
                bare += [head] * (head not in (own, *bare))
                texts.append(call[len(head) :])
                continue
            inner = [it for it in calls_in(call[len(head) :], lemmas | {own}) if " " in it]
            closed += [it for it in dict.fromkeys([call, *inner]) if it not in closed]
    heads = {WORD.match(it)[0] for it in closed}
    facts = closed + [it for it in bare if it not in heads]
    return f"grind (arith, {', '.join(facts)})" if facts else "grind arith"


FACTS = re.compile(r"\.(ensures|requires|invariant|true|false|is|was|auto|branch)(\.|$)|\.x-is$|^type_inv")


def spared(text, lemmas, facts):
    """A lemma's call without the arguments that antt finds: names of values, and what is made of them."""
    head = WORD.match(text)
    if not head or head[0] not in lemmas:
        return text
    parts, at = [head[0]], head.end()
    while at < len(text):
        if text[at] == " ":
            at += 1
            continue
        end = end_of_part(text, at)
        if end is None or WORD.match(text, at) and WORD.match(text, at)[0] in STOPS:
            return text
        part, at = text[at:end], end
        inner = part[1:-1] if part[0] == "(" and part[-1] == ")" else None
        words = {it for it in WORD.findall(part) if it not in STOPS}
        if inner and WORD.match(inner) and WORD.match(inner)[0] in lemmas:
            part = f"({spared(inner, lemmas, facts)})"
        elif part[0] not in "{[" and not words & lemmas and "λ" not in part and all(is_value(it, facts) for it in words):
            part = "_"
        parts.append(part)
    return " ".join(parts)


def is_value(word, facts):
    return word.split(".")[0] not in facts and not (word.startswith("c.") and FACTS.search(word))


def values_in(text):
    """The names of values in binders: their types name no value, and no relation."""
    found = set()
    for names, kind in re.findall(r"[({]((?:[^\s(){}:]+ )+): ((?:[^(){}]|\([^()]*\))*)[)}]", text):
        if not re.search(r"[≡≢<≤×⊎→]|(?<![\w.])[a-z]", kind):
            found |= set(names.split())
    return found


def spared_of(body, lemmas, own, facts):
    """A body that calls a lemma, without the arguments that antt finds; nothing where it finds none."""
    flat = re.sub(r"\s+", " ", re.sub(r"--.*", "", body)).strip()
    text = spared(flat, lemmas | {own}, facts)
    return text if text != flat else None


def laid_out(head, text, depth, room):
    """The head and the text on one line, or on two where that is too long; nothing where they need as much room as there was."""
    one, two = [f"{head} {text}"], [head, " " * (depth + 4) + text]
    lines = one if len(one[0]) <= WIDTH else two
    return lines if max(map(len, lines)) <= WIDTH and len(lines) < room else None


def cited(text, lemmas, but=()):
    """The lemmas that a text cites, each once."""
    return list(dict.fromkeys(it for it in WORD.findall(re.sub(r"--.*", "", text)) if it in lemmas and it not in but))


def tactics_with(names):
    """The tactics that may find a proof by these lemmas."""
    listed = "".join(f", {it}" for it in names)
    return [f"grind (arith{listed})" if names else "grind arith", f"search (rules{listed})" if names else "search rules"]


def shorter_texts(body, lemmas, lines, lemma):
    """What may stand in place of a body or of a part of one."""
    said = [it for k, it in enumerate(lines) if lemma.begin <= k < lemma.stated or it.lstrip().startswith("module ")]
    bound = {it for begin, _ in lemma.equations for it in re.findall(r"[^\s(){}:,∷]+", lines[begin].partition(" =")[0])} | bound_in(body)
    bound |= {it for names in re.findall(r"[({]((?:[^\s(){}:]+ )+):", " ".join(said)) for it in names.split()}
    facts = bound - values_in(" ".join(said)) - {"c"}
    found = facts_of(body, lemmas, lemma.name), *tactics_with(cited(body, lemmas, {lemma.name})), spared_of(body, lemmas, lemma.name, facts)
    return dict.fromkeys(filter(None, found))


def text_of(lines, parts):
    return "\n".join(it for begin, end in parts for it in lines[begin:end])


def head_of(lines, lemma, begin):
    """An equation's first line: what stands up to its `=`, and what behind it."""
    line = lines[begin]
    for mark in re.finditer(r" =(?= |$)", line if re.match(rf" *{re.escape(lemma.name)} ", line) else ""):
        if is_closed(line[: mark.start()]):
            return line, line[: mark.end()], line[mark.end() :]
    return None


def body_of(lines, head, begin, end):
    return "\n".join([head[2] or "", *lines[begin + 1 : end]])


def instead(lines, lemma, begin, end, over, texts):
    """The edits that put each of these texts in place of the body of an equation, and of what stands behind it up to a line."""
    head = head_of(lines, lemma, begin)
    for text in texts if head and end <= over else ():
        new = laid_out(head[1], text, lemma.depth, over - begin)
        if new:
            yield [(begin, over, new)]


def bodies(lines, lemma, lemmas):
    """Each way to write a lemma with fewer lines, as lists of edits: from which line to which, and what stands there then."""
    for begin, end in lemma.equations:
        head = head_of(lines, lemma, begin)
        if head and end - begin > 1:
            yield from instead(lines, lemma, begin, end, end, shorter_texts(body_of(lines, head, begin, end), lemmas, lines, lemma))
        yield from unnamed_lets(lines, begin, end)
    if lemma.where:
        yield from without_locals(lines, lemma, lemmas)
    else:
        yield from one_equation(lines, lemma, lemmas)


def without_locals(lines, lemma, lemmas):
    """A lemma without those below its `where`, without one of them, and with shorter ones."""
    local = {it.name for it in lemma.local}
    if len(lemma.equations) == 1:
        (begin, end), behind = lemma.equations[0], (lemma.where, lemma.end)
        names = cited(text_of(lines, [(begin, end), behind]), lemmas, local | {lemma.name})
        yield from instead(lines, lemma, begin, end, lemma.end, tactics_with(names))
    for it in lemma.local:
        yield from bodies(lines, it, (lemmas | local) - {it.name})
        for owner in [lemma, *lemma.local]:
            gone = (lemma.where, lemma.end) if len(lemma.local) == 1 else span(lines, it)
            places = range(lemma.equations[0][0], lemma.end)
            yield from without_one(lines, owner, it, gone, places, lemmas | local)


def without_one(lines, owner, gone, lines_gone, places, lemmas):
    """An equation of the owner that does without a lemma, where no other place of these names that one."""
    users = [k for k in places if not gone.begin <= k < gone.end and gone.name in WORD.findall(re.sub(r"--.*", "", lines[k]))]
    within = cited(text_of(lines, [(gone.equations[0][0], gone.end)]), lemmas, {gone.name, owner.name, *(it.name for it in gone.local)})
    for begin, end in owner.equations if users and owner is not gone else ():
        head = head_of(lines, owner, begin)
        if head and all(begin <= k < end for k in users):
            names = cited(body_of(lines, head, begin, end), lemmas, {owner.name, gone.name})
            for text in tactics_with(list(dict.fromkeys(names + within))):
                new = laid_out(head[1], text, owner.depth, end - begin + lines_gone[1] - lines_gone[0])
                if new:
                    yield [(begin, end, new), (*lines_gone, [])]


def span(lines, lemma):
    """The lines of a lemma with the sentence above it, and with a blank line. A sentence stays that is of the next lemma, too."""
    begin, end = lemma.begin, lemma.end
    is_last = end + 1 >= len(lines) or not lines[end + 1].strip() or indent(lines[end + 1]) < lemma.depth
    if is_last or lines[end + 1].lstrip().startswith("-- "):
        while begin and re.match(r" *-- (?!--)", lines[begin - 1]):
            begin -= 1
    return (begin - (not lines[begin - 1].strip()), end) if is_last else (begin, end + 1)


def unnamed_lets(lines, begin, end):
    """A body without one of the `let`s at its beginning whose name stands nowhere behind it."""
    at, depth = begin + 1, indent(lines[min(begin + 1, len(lines) - 1)])
    while at < end:
        name, over = re.match(rf" {{{depth}}}let ([^\s(){{}}:,;=]+) (?::|=)", lines[at]), at + 1
        while over < end and (indent(lines[over]) > depth or lines[over].strip() == "in" or lines[over].lstrip()[0] in ")]}"):
            over += 1
        if not name or over == end or not re.search(r"\bin$", lines[over - 1]):
            return
        if not re.search(f"{BEFORE}{re.escape(name[1])}{BEHIND}", text_of(lines, [(over, end)])):
            yield [(at, over, [])]
        at = over


def patterns(head):
    """The patterns of an equation, behind its name."""
    found, at = [], 0
    head = head.strip()
    while at < len(head):
        end = end_of_part(head, at)
        if end is None:
            return []
        found.append(head[at:end])
        at = end + 1 if head[end : end + 1] == " " else end
    return found


def named_arguments(lines, lemma):
    """The names of what a lemma takes, by its statement: the premises without one are numbered."""
    said = re.sub(r"\s+", " ", re.sub(r"--.*", "", text_of(lines, [(lemma.begin, lemma.stated)]))).strip().partition(" : ")[2]
    names, depth, part = [], 0, ""
    for mark in said + " →":
        depth += {"(": 1, "[": 1, "{": 1, ")": -1, "]": -1, "}": -1}.get(mark, 0)
        part += mark
        group = re.match(r" *\(([^\s(){}:]+(?: [^\s(){}:]+)*) : .*\)$", part) if mark == ")" and depth == 0 else None
        if group:
            names += group[1].split()
            part = ""
        elif mark == "→" and depth == 0:
            names += [f"its_{len(names)}"] if part.strip("→ ") and not part.strip().startswith("{") else []
            part = ""
    return names[:-1] if names and names[-1].startswith("its_") else names


def one_equation(lines, lemma, lemmas):
    """One equation in place of several, where none is by induction."""
    heads = [head_of(lines, lemma, begin) for begin, _ in lemma.equations]
    bodies_of = [body_of(lines, head, *it) for head, it in zip(heads, lemma.equations) if head]
    if len(heads) < 2 or not all(heads) or any(lemma.name in WORD.findall(it) for it in bodies_of):
        return
    rows = [patterns(it[1].strip()[len(lemma.name) : -1]) for it in heads]
    names = named_arguments(lines, lemma)
    if not rows[0] or len({len(it) for it in rows}) > 1 or len(names) < len(rows[0]):
        return
    plain = re.compile(r"^[^\s(){}\[\]]+$")
    arguments = [same[0] if len(set(same)) == 1 and plain.match(same[0]) else names[k] for k, same in enumerate(zip(*rows))]
    begin, end = lemma.equations[0][0], lemma.equations[-1][1]
    for text in tactics_with(cited("\n".join(bodies_of), lemmas, {lemma.name})) if len(set(arguments)) == len(arguments) else ():
        new = laid_out(f"{' ' * lemma.depth}{lemma.name} {' '.join(arguments)} =", text, lemma.depth, end - begin)
        if new:
            yield [(begin, end, new)]


def uses_once(lines, every, lemmas, words):
    """Lemmas that one other lemma of the file uses, and nothing else: without them, by what they cite or with their body there."""
    for gone in every:
        own = re.sub(r"--.*", "", text_of(lines, [(gone.begin, gone.end)]))
        here = [k for k, it in enumerate(lines) if not gone.begin <= k < gone.end and not re.match(r"(pub )?use ", it)]
        there = sum(WORD.findall(re.sub(r"--.*", "", lines[k])).count(gone.name) for k in here)
        if "goal." not in lines[gone.begin] and there and words[gone.name] == there + WORD.findall(own).count(gone.name):
            for owner in every:
                if not owner.where:
                    for edits in without_one(lines, owner, gone, span(lines, gone), here, lemmas):
                        yield owner, edits


def blocks(lines, lemma, lemmas):
    """Each part of a body, of two lines and more, that stands behind ↦ or =."""
    for first, last in lemma.equations:
        for begin in range(first + 1, last):
            depth, end = indent(lines[begin]), begin + 1
            while end < last and indent(lines[end]) > depth:
                end += 1
            is_open = lines[begin][-1:] in "[({"
            if end < last and is_open and indent(lines[end]) == depth and re.match(r"^ *[\])}]+[;,]?( in)?$", lines[end]):
                end += 1
            heads = (r"^ *\| .*? ↦(?= |$)", r"^ *(let )?[^\s(){}:,;=]+ =(?= |$)", r"^ *let [^\s(){}:,;=]+ : .*? =(?= |$)")
            head = next((it for it in (re.match(each, lines[begin]) for each in heads) if it), None)
            tail = re.search(r"(;|,| in|)$", lines[end - 1])[1]
            is_let = lines[begin].lstrip().startswith("let ")
            if end - begin < 2 or not head or is_let and tail != " in" and lines[end : end + 1] != [" " * depth + "in"]:
                continue
            body = "\n".join([lines[begin][head.end() :], *lines[begin + 1 : end]])
            for text in shorter_texts(body.removesuffix(tail), lemmas, lines, lemma):
                new = laid_out(head[0], text + tail, depth, end - begin)
                if new:
                    yield [(begin, end, new)]


def planted(file, parts, words, count):
    """The file with a second lemma for each try, the lines where each of these stands, and what it puts where, by its name."""
    lines, tries, added = read(file), {}, []
    every = lemmas_in(lines)
    lemmas = cited_names(lines) | {it.name for it in every}
    found = [(it, edits) for it in every for edits in parts(lines, it, lemmas - {it.name})]
    found += uses_once(lines, every, lemmas, words) if parts is bodies else []
    for lemma, edits in sorted({repr(it[1]): it for it in found}.values(), key=lambda it: it[0].end):
        name = f"{lemma.name}__{count + len(tries)}"
        text = lines[: lemma.end]
        for begin, over, new in sorted((it for it in edits if it[0] >= lemma.begin and it[1] <= lemma.end), reverse=True):
            text[begin:over] = new
        text = [re.sub(f"{BEFORE}{re.escape(lemma.name)}{BEHIND}", name, it) for it in text[lemma.begin :]]
        text[0] = re.sub(r"^( *)pub ", r"\1", text[0])
        added.append((lemma.end, text, name))
        tries[name] = (file, lemma.name, edits)
    for end, text, _ in reversed(added):
        lines[end:end] = ["", *text]
    whole, places, before = with_tactics(lines), {}, 0
    shift = len(whole) - len(lines)
    for end, text, name in added:
        places[name] = range(end + before + shift + 2, end + before + shift + 2 + len(text))
        before += len(text) + 1
    return whole, places, tries


def with_tactics(lines):
    """A file with the names of the tactics that it uses among its imports."""
    uses = [it for it in lines if it.startswith("use ")]
    text = "\n".join(lines)
    lacking = [line for name, line in TACTICS.items() if re.search(rf"[( ,]{name}[,)\s]", text) and not any(re.search(rf"[{{ ]{name}[,}}]", it) for it in uses)]
    at = next((k for k, it in enumerate(lines) if it.startswith("use ")), 0)
    return lines[:at] + lacking + lines[at:]


def said_of(crate):
    """What a check of the crate says, or nothing where it comes to no function."""
    ran = subprocess.run(["rt", "check", "--jobs", "1"], cwd=f"crates/{crate}", stdout=subprocess.PIPE, stderr=subprocess.STDOUT, errors="replace", check=False)
    if f"fn {crate}::" not in ran.stdout:
        print(ran.stdout[-2000:], "\nno verdict")
        return None
    return ran.stdout


def gain_of(edits):
    return sum(end - begin - len(new) for begin, end, new in edits)


def put(before, taken):
    """Writes the files as they were, but for the edits that are taken, those that spare most first; what overlaps another one is left."""
    count = gain = 0
    for file, lines in before.items():
        lines, chosen = list(lines), []
        for edits in sorted((it[2] for it in taken if it[0] == file), key=lambda it: (-gain_of(it), it[0][0])):
            if not any(begin < end_of and begin_of < end for begin, end, _ in edits for begin_of, end_of, _ in chosen):
                chosen += edits
                count, gain = count + 1, gain + gain_of(edits)
        for begin, end, new in sorted(chosen, reverse=True):
            lines[begin:end] = new
        write(file, with_tactics(lines))
    return count, gain


def errors_in(crate, said):
    found = re.findall(r"^\.?/?(proofs/\S+\.antt):(\d+):\d+: error: (?!\d+ declaration)(.*)", said or "", re.M)
    return [(f"crates/{crate}/{file}", int(line), text) for file, line, text in found]


def shorten(crate, parts):
    before = {file: read(file) for file in files_of(crate)}
    texts = glob.glob("crates/*/[ps]*/**/*.antt", recursive=True) + glob.glob("crates/*/src/**/*.rt", recursive=True)
    words = collections.Counter(it.rpartition(".")[2] for file in texts for it in WORD.findall(re.sub(r"--.*", "", "\n".join(read(file))).replace("::", " ")))
    tries, places = {}, {}
    for file in before:
        lines, where, more = planted(file, parts, words, len(tries))
        if more:
            write(file, lines)
            tries |= more
            places |= where
    print(f"{crate}: {len(tries)} tries", flush=True)
    said = said_of(crate)
    put(before, [])
    if not said:
        return 1
    refused, broken = set(re.findall(r"([^\s`,()]+__\d+)", said)), set()
    for file, line, text in errors_in(crate, said):
        here = {name for name, it in tries.items() if it[0] == file and line in places[name]}
        refused |= here
        broken |= set() if here or "`" in text else {file}
    taken = [it for name, it in tries.items() if name not in refused and it[0] not in broken]
    while taken:
        count, gain = put(before, taken)
        said = said_of(crate)
        errors = errors_in(crate, said)
        if said and not errors:
            break
        words = {(file, name) for file, _, text in errors for name in re.findall(r"[^\s`(),]+", text)}
        left = [it for it in taken if it[:2] not in words]
        files = {file for file, _ in words}
        taken = left if len(left) < len(taken) else [it for it in taken if it[0] not in files] if said and files & {it[0] for it in taken} else []
        print(f"{crate}: {len(taken)} left after {len(errors)} errors", flush=True)
    if not taken:
        put(before, [])
        count = gain = 0
    print(f"{crate}: {count} of {len(tries)} taken, {gain} lines fewer")
    return 0


@dataclasses.dataclass
class Fold:
    """What one use of a lemma may become: the file of the use, the lemma in which it stands, the lines of its equation, what may stand in
    place of these, and the imports that this needs; and which lemmas have to be public for it.
    """

    file: str
    owner: Lemma
    begin: int
    end: int
    news: list
    imports: list
    public: list


def known_in(lines):
    """The names that a file knows: what it imports, each with its path, and what it declares."""
    known = {exported(it): it for line in lines for it in items_of(line)}
    for line in lines:
        head = re.match(r"^ *(?:pub )?(?:abbrev |record |data |ruleset )*(?:pub )?([^\s(){}:,;=]+)(?= |$)", line)
        if head and not line.startswith("use "):
            known.setdefault(head[1], None)
    return known


def folds_of(crate, kind, most=3):
    """The lemmas of a crate that a few equations use, and nothing else, each with these uses."""
    texts, files, every, uses = {}, files_of(crate), {}, {}
    for file in files:
        texts[file] = lines = read(file)
        every[file] = lemmas_in(lines)
    names = {it.name for file in files for it in every[file]}
    words = collections.Counter()
    for file in glob.glob("crates/*/[ps]*/**/*.antt", recursive=True) + glob.glob("crates/*/src/**/*.rt", recursive=True):
        lines = texts.get(file) or read(file)
        for it in WORD.findall(re.sub(r"--.*", "", "\n".join(it for it in lines if not re.match(r"(pub )?use ", it))).replace("::", " ")):
            words[it.rpartition(".")[2]] += 1
    for file in files:
        for owner in every[file]:
            for begin, end in owner.equations:
                for name, count in collections.Counter(WORD.findall(re.sub(r"--.*", "", text_of(texts[file], [(begin, end)])))).items():
                    if name in names and name != owner.name:
                        uses.setdefault(name, []).append((file, owner, begin, end, count))
    for file in files:
        known, lines = cited_names(texts[file]) | {it.name for it in every[file]}, texts[file]
        own_names = {it.name: it for it in every[file]}
        for gone in every[file]:
            own = re.sub(r"--.*", "", text_of(lines, [(gone.begin, gone.end)]))
            found = uses.get(gone.name, [])
            if "goal." in lines[gone.begin] or " abbrev " in f" {lines[gone.begin]}" or not 0 < len(found) <= most:
                continue
            if words[gone.name] != WORD.findall(own).count(gone.name) + sum(it[4] for it in found) or any(it[1] is gone for it in found):
                continue
            local = {it.name for it in gone.local}
            parts = [*gone.equations, *([(gone.where, gone.end)] if gone.where else [])]
            within = cited(text_of(lines, parts), known, {gone.name} | local)
            if WORD.findall(re.sub(r"--.*", "", text_of(lines, gone.equations))).count(gone.name) > len(gone.equations):
                continue
            folds = [fold_of(crate, kind, texts, every, known_in(lines), own_names, file, gone, within, it) for it in found]
            if all(folds) and gone.end - gone.begin + 1 + sum(it.end - it.begin - min(map(len, it.news)) - (len(it.imports) > 0) for it in folds) > 1:
                yield gone, folds


def inlined(lines, begin, end, gone_lines, gone):
    """The lines of an equation with a lemma's body in place of the lemma, where that is one call on one line; else nothing."""
    head = head_of(gone_lines, gone, gone.equations[0][0])
    at = [k for k in range(begin, end) if gone.name in WORD.findall(lines[k])]
    if len(gone.equations) > 1 or gone.where is not None or not head or len(at) != 1:
        return None
    names = patterns(head[1].strip()[len(gone.name) : -1])
    body = re.sub(r"\s+", " ", re.sub(r"--.*", "", body_of(gone_lines, head, *gone.equations[0]))).strip()
    line, found = lines[at[0]], re.search(f"{BEFORE}{re.escape(gone.name)}{BEHIND}", lines[at[0]])
    if not found or len(body) > WIDTH or line.count(gone.name) > 1 or not all(re.match(r"^[^\s(){}\[\]]+$", it) for it in names) or len(set(names)) < len(names):
        return None
    parts, over = [], found.end()
    for _ in names:
        stop = end_of_part(line, over + 1) if line[over : over + 1] == " " and line[over + 1 : over + 2] not in ("", "{") else None
        word = WORD.match(line, over + 1)
        if stop is None or word and word[0] in STOPS:
            return None
        parts.append(line[over + 1 : stop])
        over = stop
    if any(set(re.split(r"[^\w'-]+", it)) & bound_in(body) for it in parts) or line[over : over + 1] == "." or re.match(r" [^\s)\]},;|]", line[over:]) and not re.match(r" (∙|in|≡|\+)( |$)", line[over:]):
        return None
    values = dict(zip(names, parts))

    def put(word):
        name, dot, rest = word[0].partition(".")
        return values[name] + dot + rest if name in values else word[0]

    term = WORD.sub(put, body)
    if len(term) > SHORT:
        return None
    before, behind = line[: found.start()], line[over:]
    bare = re.match(r"^[^\s(){}\[\]]+$", term) or before[-1:] == "(" and behind[:1] == ")"
    new = before + (term if bare else f"({term})") + behind
    return [*lines[begin : at[0]], new, *lines[at[0] + 1 : end]] if len(new) <= WIDTH else None


def fold_of(crate, kind, texts, every, known, own_names, file, gone, within, use):
    """The texts that may do without a lemma where it is used."""
    there, owner, begin, end, _ = use
    lines = texts[there]
    head = head_of(lines, owner, begin)
    if not head:
        return None
    lemmas = cited_names(lines) | {it.name for it in every[there]} | {it.name for it in owner.local}
    body = body_of(lines, head, begin, end)
    names = cited(body, lemmas, {owner.name, gone.name})
    imports, public = [], []
    if there != file:
        knows = known_in(lines)
        for name in within:
            own = own_names.get(name)
            path = f"Rattle.{crate}.proofs.{'.'.join(file[:-5].split('/proofs/')[1].split('/'))}.{name}" if own else known.get(name)
            if name in knows:
                if not path or not knows[name] or origin(knows[name]) != origin(path):
                    return None
                continue
            if not path:
                return None
            if own:
                public.append((file, own.begin))
            imports.append(path)
    listed = list(dict.fromkeys(names + within))
    closed = [it for it in re.split(r", (?![^(]*\))", facts_of(body, lemmas, owner.name)[7:-1]) if it.split(" ")[0].strip("(") != gone.name]
    tries = [*tactics_with(listed), f"grind ({', '.join(dict.fromkeys(['arith'] + closed[1:] + within))})"]
    # (more facts than these take much time and memory, and seldom help)
    news = [laid_out(head[1], it, owner.depth, 3) for it in dict.fromkeys(tries) if kind == "folds" and len(listed) <= 10 and is_closed(it)]
    news = list(filter(None, [*news, inlined(lines, begin, end, texts[file], gone) if kind == "inline" else None]))
    return Fold(there, owner, begin, end, news, imports, public) if news else None


def fold(crate, kind):
    """Does without lemmas that few equations use, each of which then cites what that lemma cites."""
    before = {file: read(file) for file in files_of(crate)}
    groups = list(folds_of(crate, kind))
    tries, added = {}, {}
    for k, (gone, folds) in enumerate(groups):
        for n, it in enumerate(folds):
            for new in it.news:
                name = f"{it.owner.name}__{len(tries)}"
                lines = before[it.file]
                text = lines[it.owner.begin : it.begin] + new + lines[it.end : it.owner.end]
                text = [re.sub(f"{BEFORE}{re.escape(it.owner.name)}{BEHIND}", name, line) for line in text]
                text[0] = re.sub(r"^( *)pub ", r"\1", text[0])
                added.setdefault(it.file, []).append((it.owner.end, text, name))
                tries[name] = (k, n, new)
    print(f"{crate}: {len(groups)} lemmas, {len(tries)} tries", flush=True)
    if not tries:
        return 0

    def lay(chosen, more):
        """Writes the files with these groups' imports and public lemmas, with the edits of those that are chosen, and with what is planted.
        Says which lines of which file are of which try, or of which group.
        """
        edits = {file: set() for file in before}
        for k, news in chosen.items():
            for it, new in zip(groups[k][1], news):
                edits[it.file].add((it.begin, it.end, tuple(new), k))
                edits[it.file] |= {(0, 0, (f"use {path.rpartition('.')[0]}.{{{path.rpartition('.')[2]}}}",), None) for path in it.imports}
                for file, at in it.public:
                    edits[file].add((at, at + 1, (re.sub(r"^( *)(pub )?", r"\1pub ", before[file][at], count=1),), None))
        places = {}
        for file, lines in before.items():
            every = [it for it in edits[file] if it[1]] + [(end, end, ("", *text), name) for end, text, name in more.get(file, [])]
            whole, marks = list(lines), [None] * len(lines)
            for at, over, new, whose in sorted(every, key=lambda it: it[:2], reverse=True):
                whole[at:over], marks[at:over] = new, [whose] * len(new)
            first = next((k for k, it in enumerate(whole) if it.startswith("use ")), 0)
            imports = sorted({it[2][0] for it in edits[file] if not it[1]})
            whole[first:first], marks[first:first] = imports, [None] * len(imports)
            shift = len(with_tactics(whole)) - len(whole)
            write(file, with_tactics(whole))
            places |= {(file, n + shift + 1): whose for n, whose in enumerate(marks) if whose is not None}
        return places

    def refused_in(said, places):
        """Whose lines a check refuses, and where it says something of another line."""
        errors = errors_in(crate, said)
        return {places[it[:2]] for it in errors if it[:2] in places}, {it[0] for it in errors if it[:2] not in places and "`" not in it[2]}

    # The imports of all, and each use as it was, so that only what is planted can fail. A file is not looked at where one fails that it
    # imports, so those that are refused go, and the rest is checked again.
    every_one = {k: [before[it.file][it.begin : it.end] for it in folds] for k, (_, folds) in enumerate(groups)}
    for _ in range(ROUNDS):
        planted_now = {file: [it for it in its if it[2] in tries] for file, its in added.items()}
        places = lay(every_one, planted_now)
        said = said_of(crate)
        if not said:
            lay({}, {})
            return 1
        refused, files = refused_in(said, places)
        refused = {it for it in refused if it in tries} | {it for it in tries if re.search(rf"(?<![^\s`,(]){re.escape(it)}(?![^\s`,()])", said)}
        refused |= {name for name, (k, n, _) in tries.items() if groups[k][1][n].file in files}
        tries = {name: it for name, it in tries.items() if name not in refused}
        print(f"{crate}: {len(tries)} tries left", flush=True)
        if not refused:
            break
    passed = {}
    for k, n, new in tries.values():
        passed.setdefault(k, {}).setdefault(n, []).append(new)
    whole = {k: [min(it[n], key=lambda new: (len(new), sum(map(len, new)))) for n in sorted(it)] for k, it in passed.items() if len(it) == len(groups[k][1])}

    def gain(k):
        gone, folds = groups[k]
        return gone.end - gone.begin + 1 + sum(it.end - it.begin - len(new) for it, new in zip(folds, whole[k])) - sum(len(it.imports) > 0 for it in folds)

    taken, spans, users, left_out = {}, set(), set(), set()
    for k in sorted(whole, key=gain, reverse=True):
        gone, folds = groups[k]
        here = {(it.file, it.begin) for it in folds}
        owners = {it.owner.name for it in folds}
        cites = {word for new in whole[k] for line in new for word in WORD.findall(line)}
        if gain(k) < 2 or here & spans or owners & left_out or gone.name in users or cites & left_out:
            continue
        taken[k] = whole[k]
        spans |= here
        users |= owners | cites
        left_out.add(gone.name)
    print(f"{crate}: {len(whole)} lemmas can go, {len(taken)} at once", flush=True)
    while taken:
        places = lay(taken, {})
        said = said_of(crate)
        errors = errors_in(crate, said)
        if said and not errors:
            break
        refused, files = refused_in(said, places)
        files |= set() if refused else {it[0] for it in errors}
        taken = {k: it for k, it in taken.items() if said and k not in refused and (refused or not any(fold.file in files for fold in groups[k][1]))}
        print(f"{crate}: {len(taken)} left after {len(errors)} errors", *[it for it in errors if it[:2] not in places], sep="\n    ", flush=True)
    if not taken:
        lay({}, {})
    print(f"{crate}: {len(taken)} lemmas taken out of what uses them, some {sum(map(gain, taken))} lines; then unused, imports and common")
    return 0


def is_used(item, body):
    name = item.partition(" as ")[2] or item.rpartition(".")[2]
    if "◌" in name:
        return all(part in body for part in name.split("◌"))
    return re.search(rf"(?<![^\s(){{}}\[\],;.∥!?]){re.escape(name)}(?=[\s(){{}}\[\],;.∥]|$)", body) is not None


def one_line(items):
    """One line of imports, with the path that all share before the brackets."""
    paths = [it.split(".") for it in items]
    same = 0
    while same < min(map(len, paths)) - 1 and len({it[same] for it in paths}) == 1:
        same += 1
    return f"use {'.'.join(paths[0][:same])}.{{{', '.join('.'.join(it[same:]) for it in paths)}}}"


def folder_of(item):
    common = re.match(r"(Rattle\.\w+\.proofs\.Common)\.", item)
    return common[1] if common else ".".join(item.split(".")[:-1][:3])


def imported(lines, body):
    """The lines of imports for the names that the body uses, those of one folder together."""
    groups = {}
    for line in lines:
        names = re.match(r"use (\S+?)\.\{(.*)\}\s*$", line)
        items = [f"{names[1]}.{it.strip()}" for it in names[2].split(", ")] if names else [line[4:].strip()]
        for item in items:
            if is_used(item, body):
                alone = not names or " as " in item
                group = groups.setdefault((item, line) if alone else folder_of(item), [])
                group += [item] * (item not in group)
    found = []
    for folder, items in groups.items():
        if isinstance(folder, tuple):
            item, line = folder
            module, _, name = item.partition(" as ")[0].rpartition(".")
            found.append(f"use {module}.{{{name} as {item.partition(' as ')[2]}}}" if "{" in line else line)
            continue
        row = []
        for item in sorted(items, key=lambda it, all_of=items: next(k for k, other in enumerate(all_of) if other.rpartition(".")[0] == it.rpartition(".")[0])):
            if row and len(one_line([*row, item])) > WIDTH:
                found.append(one_line(row))
                row = []
            row.append(item)
        found.append(one_line(row))
    return found


def tidy_imports(crate):
    count = 0
    for file in files_of(crate):
        lines = with_tactics(read(file))
        places = [k for k, it in enumerate(lines) if it.startswith("use ")]
        if not places or places != list(range(places[0], places[-1] + 1)) or any(it.startswith("pub use") for it in lines):
            continue
        body = "\n".join(re.sub(r"--.*", "", it) for it in lines[: places[0]] + lines[places[-1] + 1 :])
        new = imported(lines[places[0] : places[-1] + 1], body)
        count += len(places) - len(new)
        lines[places[0] : places[-1] + 1] = new
        write(file, lines)
    print(f"{crate}: {count} lines of imports fewer")
    return 0


def exported(item):
    """The name by which a file knows what it imports."""
    return item.partition(" as ")[2] or item.rpartition(".")[2]


def items_of(line):
    """What a line of imports names, each with its path; none where the line hands a module over as it is."""
    names = re.match(r"(?:pub )?use (\S+?)\.\{(.*)\}\s*$", line)
    return [f"{names[1]}.{it.strip()}" for it in names[2].split(", ")] if names else []


def rows_of(items, pub=""):
    """Lines of imports, those of one folder together, each as short as may be."""
    found, folders = [], {}
    for item in items:
        folders.setdefault(folder_of(item.partition(" as ")[0]), []).append(item)
    for group in folders.values():
        row = []
        for item in sorted(group):
            if row and len(pub) + len(one_line([*row, item])) > WIDTH:
                found.append(pub + one_line(row))
                row = []
            row.append(item)
        found.append(pub + one_line(row))
    return found


@functools.lru_cache(None)
def names_passed_on(file):
    """What a module of common names passes on: the path of each, by the name."""
    return {exported(it): it for line in read(file) for it in items_of(line)} if os.path.isfile(file) else {}


def passed_on(item):
    """The path that an import has where a crate's module of common names takes it from."""
    crate = re.match(r"Rattle\.(\w+)\.proofs\.Common\.", item)
    return names_passed_on(f"crates/{crate[1]}/proofs/Common.antt").get(exported(item), item) if crate else item


@functools.lru_cache(None)
def module(path):
    """The lines of a module of the kit or of this repository, and the module that it is where another hands it over."""
    _, crate, kind, *parts = path.split(".") if path.startswith("Rattle.") else [None] * 3
    for top in (f"crates/{crate}", f"{KIT}/{crate}.rlib/lang/antt"):
        if os.path.isfile(f"{top}/{kind}/{'/'.join(parts)}.antt"):
            return path, read(f"{top}/{kind}/{'/'.join(parts)}.antt")
    for root in (f"crates/{crate}/{kind}/Lib.antt", f"{KIT}/{crate}.rlib/lang/antt/{kind}.antt"):
        for line in read(root) if os.path.isfile(root) and parts else []:
            if line.startswith("pub use ") and line.rpartition(".")[2] == parts[0]:
                return module(".".join([line[8:].strip(), *parts[1:]]))
    return path, []


@functools.lru_cache(None)
def origin(item):
    """Where that stands which an import names, through the modules that pass it on."""
    path, _, name = item.partition(" as ")[0].rpartition(".")
    path, lines = module(path)
    for line in lines:
        if line.startswith("pub use "):
            for it in items_of(line):
                if exported(it) == name and it != item:
                    return origin(it)
    return f"{path}.{name}"


def common_names(crate):
    """Lets each file of proofs take what it names outside of its crate's proofs from one module, proofs/Common.antt."""
    common, own = f"crates/{crate}/proofs/Common.antt", f"Rattle.{crate}.proofs."
    root = f"crates/{crate}/proofs/Lib.antt"
    count = len(read(common)) if os.path.isfile(common) else 0
    files, users = {}, {}
    for file in files_of(crate):
        lines = read(file)
        places = [k for k, it in enumerate(lines) if re.match(r"(pub )?use ", it)]
        if file == common or not places or places != list(range(places[0], places[-1] + 1)):
            continue
        # (what a file unfolds has to come from where it stands)
        unfolded = {it for line in lines if line.lstrip().startswith("unfolding ") for it in line.split()[1:]}
        outside, rest = [], []
        for line in lines[places[0] : places[-1] + 1]:
            items = list(map(passed_on, items_of(line)))
            if line.startswith("pub ") or not items or items[0].startswith(own):
                rest.append(line)
            else:
                outside += [it for it in items if exported(it) not in unfolded]
                rest += rows_of([it for it in items if exported(it) in unfolded])
        files[file] = lines, places, outside, rest
        for item in outside:
            users.setdefault(exported(item), {}).setdefault(origin(item), []).append(item)
    chosen = {name: max(found, key=lambda it, found=found: (len(found[it]), it)) for name, found in users.items()}
    spelled = {name: max(set(users[name][it]), key=users[name][it].count) for name, it in chosen.items()}
    for file, (lines, places, outside, rest) in files.items():
        names = sorted({f"{own}Common.{exported(it)}" for it in outside if chosen[exported(it)] == origin(it)})
        others = [it for it in outside if chosen[exported(it)] != origin(it)]
        new = rows_of(names) + rows_of(others) + rest
        count += len(places) - len(new)
        write(file, lines[: places[0]] + new + lines[places[-1] + 1 :])
    said = ["-- The names that the proofs of this crate cite from outside of them, passed on from one place. Declares nothing."]
    said += rows_of(sorted(spelled.values()), "pub ")
    write(common, [*said, ""])
    if "mod Common" not in read(root):
        write(root, ["mod Common", *read(root)])
        count -= 1
    print(f"{crate}: {count - len(said) - 1} lines of imports fewer")
    return 0


def words_of(lines):
    """The names in a text, those of fields apart, too."""
    words = {it for line in lines for it in WORD.findall(re.sub(r"--.*", "", line))}
    return words | {part for it in words for part in it.split(".")}


def drop_unused(*crates):
    """Drops the lemmas that neither an answer, a definition or the code needs nor a promise names, through other lemmas or not."""
    cites, places, needed, files = {}, {}, set(), {}
    for file in sorted(glob.glob("crates/*/proofs/**/*.antt", recursive=True)):
        files[file] = lines = read(file)
        inside = set()
        for it in lemmas_in(lines):
            if "goal." not in lines[it.begin]:
                cites.setdefault(it.name, set()).update(words_of(lines[it.begin : it.end]) - {it.name})
                places.setdefault(it.name, []).append((file, it.begin, it.end))
                inside.update(range(it.begin, it.end))
        needed |= words_of(it for k, it in enumerate(lines) if k not in inside and not re.match(r"(pub )?use ", it))
    for file in glob.glob("crates/*/src/**/*.rt", recursive=True):
        needed |= set(re.findall(r"proofs::\w+::([\w-]+)", "\n".join(read(file))))
    for file in glob.glob("crates/*/specs/**/*.antt", recursive=True):
        needed |= words_of(it for it in read(file) if ".proofs." in it)
    needed |= set(re.findall(r"[\w-]+", "\n".join(read("docs/promises.md"))))
    reached, left = set(), [it for it in cites if it in needed]
    while left:
        name = left.pop()
        if name not in reached:
            reached.add(name)
            left += [it for it in cites[name] if it in cites]
    count = 0
    for name in sorted(set(cites) - reached, key=lambda it: places[it], reverse=True):
        for file, begin, end in reversed(places[name]):
            if file.split("/")[1] in crates:
                lines = files[file]
                while lines[begin - 1].lstrip().startswith("-- ") and not lines[begin - 1].lstrip().startswith("-- --"):
                    begin -= 1
                end += lines[end : end + 1] == [""] and (begin == 0 or lines[begin - 1] == "")
                print(f"{file}: {name}")
                count += end - begin
                lines[begin:end] = []
                count += drop_empty_modules(lines)
                write(file, lines)
    for file in {it[0] for name in set(cites) - reached for it in places[name]}:
        if not any(re.match(r"\s*[^\s-].* : |\s*(pub )?(abbrev|record|data|ruleset|pub use) ", it) for it in files[file]):
            print(f"{file}: nothing is left in it, so it and its line in Lib.antt can go")
    print(f"{count} lines fewer")
    return 0


def drop_empty_modules(lines):
    """Drops the headers of modules in which nothing stands, and says how many lines these were."""
    before = len(lines)
    for at in reversed([k for k, it in enumerate(lines) if it.lstrip().startswith("module ")]):
        over = next((k for k in range(at, len(lines)) if lines[k].endswith("where")), at) + 1
        rest = next((it for it in lines[over:] if it.strip()), "")
        if not rest or indent(rest) <= indent(lines[at]):
            del lines[at:over]
    return before - len(lines)


def main(what, *crates):
    os.chdir(os.path.dirname(os.path.dirname(os.path.realpath(__file__))))
    if what == "unused":
        return drop_unused(*crates)
    work = {"bodies": lambda it: shorten(it, bodies), "folds": lambda it: fold(it, "folds"), "inline": lambda it: fold(it, "inline"), "blocks": lambda it: shorten(it, blocks), "imports": tidy_imports, "common": common_names}[what]
    return max(map(work, crates))


if __name__ == "__main__":
    if len(sys.argv) < 3 or sys.argv[1] not in ("bodies", "folds", "inline", "blocks", "imports", "common", "unused"):
        sys.exit(__doc__)
    sys.exit(main(*sys.argv[1:]))
