"""The schemas of a job: a validator for the words that they use, and what they say of a part.

`job.schema.json` beside this file is the strict one, and `job.lenient.schema.json` the one that lets unknown members through, as the
program does. Both are JSON Schema, draft 2020-12, for any validator; this one needs no other package."""
from __future__ import annotations

import functools
import json
import re
from pathlib import Path
from typing import Any, Callable, Dict, Iterator, List, Tuple

from .kinds import shown_as_json

Schema = Dict[str, Any]

STRICT, LENIENT = "job.schema.json", "job.lenient.schema.json"

TYPES: Dict[str, Callable[[Any], bool]] = {
    "object": lambda value: isinstance(value, dict),
    "array": lambda value: isinstance(value, list),
    "string": lambda value: isinstance(value, str),
    "boolean": lambda value: isinstance(value, bool),
    "null": lambda value: value is None,
    # (a number with a point or an exponent is no whole number for the program)
    "integer": lambda value: isinstance(value, int) and not isinstance(value, bool),
}


@functools.lru_cache(maxsize=None)
def schema(lenient: bool = False) -> Schema:
    """The schema of a job."""
    found: Schema = json.loads(Path(__file__).with_name(LENIENT if lenient else STRICT).read_text(encoding="utf-8"))
    return found


def resolved(part: Schema, root: Schema) -> Schema:
    """A part of a schema with what it refers to; its own words go before those."""
    if "$ref" not in part:
        return part
    found: Any = root
    for step in part["$ref"].split("/")[1:]:
        found = found[step]
    return {**resolved(found, root), **{key: word for key, word in part.items() if key != "$ref"}}


def types_of(part: Schema) -> List[str]:
    """The types that a part may have; none where it may have any."""
    types = part.get("type", [])
    return types if isinstance(types, list) else [types]


def is_valid(value: Any, part: Schema, root: Schema) -> bool:
    """Whether a value has no problem."""
    return next(problems(value, part, root), None) is None


def problems(value: Any, part: Any, root: Schema, path: str = "job") -> Iterator[Tuple[str, str]]:
    """What is wrong with a value by a schema: the path of each part, and what is told of it."""
    if part is True:
        return
    part = resolved(part, root)
    types = types_of(part)
    if types and not any(TYPES[it](value) for it in types):
        yield path, f"is {shown_as_json(value)}, and should be {allowed(part, root)}"
        return
    if "enum" in part and not any(value is it or value == it for it in part["enum"]) or "const" in part and value != part["const"]:
        yield path, f"is {shown_as_json(value)}, and should be {allowed(part, root)}"
    elif isinstance(value, str) and "pattern" in part and not re.search(part["pattern"], value):
        yield path, f"is {shown_as_json(value)}, and should be {allowed(part, root)}"
    elif isinstance(value, int) and not part.get("minimum", value) <= value <= part.get("maximum", value):
        yield path, f"is {shown_as_json(value)}, and should be {allowed(part, root)}"
    elif isinstance(value, list):
        yield from problems_of_list(value, part, root, path)
    elif isinstance(value, dict):
        yield from problems_of_object(value, part, root, path)
    for word in ("anyOf", "oneOf"):
        if word in part and not any(is_valid(value, it, root) for it in part[word]):
            yield path, f"is {shown_as_json(value)}, and should be {allowed(part, root)}"
    for condition in part.get("allOf", []):
        branch = "then" if is_valid(value, condition["if"], root) else "else"
        yield from problems(value, condition.get(branch, True), root, path)


def problems_of_list(value: List[Any], part: Schema, root: Schema, path: str) -> Iterator[Tuple[str, str]]:
    """What is wrong with a list. A list whose items have places is one part: it is told as a whole."""
    if not part.get("minItems", 0) <= len(value) <= part.get("maxItems", len(value)):
        yield path, f"has {len(value)} items, and should be {allowed(part, root)}"
    elif "prefixItems" in part:
        if not all(is_valid(item, one, root) for item, one in zip(value, part["prefixItems"])):
            yield path, f"is {shown_as_json(value)}, and should be {allowed(part, root)}"
    else:
        for i, item in enumerate(value):
            yield from problems(item, part.get("items", True), root, f"{path}[{i}]")


def problems_of_object(value: Dict[str, Any], part: Schema, root: Schema, path: str) -> Iterator[Tuple[str, str]]:
    """What is wrong with an object, but for its unknown members, which are told with the nearest name elsewhere."""
    for name in part.get("required", []):
        if name not in value:
            yield f"{path}.{name}", "is not there, and has no default"
    for name, one in part.get("properties", {}).items():
        if name in value:
            yield from problems(value[name], one, root, f"{path}.{name}")


def allowed(part: Any, root: Schema) -> str:
    """What a part of a schema allows, in words."""
    part = resolved(part, root)
    told, description = kind_in_words(part, root), part.get("description", "").rstrip(".")
    return f"{told} ({description})" if told and description else told or description or "anything"


def kind_in_words(part: Schema, root: Schema) -> str:
    """The type and the bounds of a part, in words; empty where it says none."""
    if "anyOf" in part:
        part = resolved(part["anyOf"][0], root)
    types = [it for it in types_of(part) if it != "null"]
    if "integer" in types:
        return f"a whole number from {part['minimum']} to {part['maximum']}"
    if "string" in types:
        return "a name of 1 to 64 characters from ! to ~, without blanks"
    if "boolean" in types:
        return "true or false"
    if "array" in types and "prefixItems" in part:
        bounds = (resolved(it, root) for it in part["prefixItems"])
        ranges = [f"{it['minimum']} to {it['maximum']}" if "minimum" in it else "a mask" for it in bounds]
        return f"a list of {len(ranges)} whole numbers: {', '.join(ranges)}"
    if "array" in types:
        at_least, at_most = part.get("minItems", 0), part.get("maxItems")
        return "a list" + (f" of {at_least} or more" if at_least else "") + (f" of at most {at_most} items" if at_most is not None else "")
    return "an object" if "object" in types else ""


def steps_of(path: str) -> List[str]:
    """The steps of a path behind its first: names of members, and `[i]` for items."""
    return path.replace("[", ".[").split(".")[1:]


def parts_at(path: str, lenient: bool = False) -> List[Schema]:
    """The parts of the schema that speak of a path of a job, as `job.graph.nets[0].keys`: none where none does."""
    root = schema(lenient)
    found = [root]
    for step in steps_of(path):
        inner: List[Any] = []
        for part in found:
            for one in [part, *(branch for it in part.get("allOf", []) for branch in (it.get("then"), it.get("else")) if branch)]:
                if step.startswith("["):
                    inner += [it for it in [one.get("items")] if it]
                else:
                    inner += [it for it in [one.get("properties", {}).get(step)] if it is not None and it is not True]
        found = [resolved(it, root) for it in inner]
    return found


def allowed_at(path: str) -> str:
    """What is allowed at a path of a job, in words; empty where no member has it."""
    parts = parts_at(path, lenient=True)
    return allowed(parts[0], schema(lenient=True)) if parts else ""
