"""The schemas of lines and of what `registry` prints as JSON, `docs/lines.schema.json` and `docs/registry.schema.json`,
and a judge of values by them."""
import functools
import json
from collections.abc import Iterable
from importlib.util import find_spec
from typing import Any

from tests.support.program import read

SAID, ANSWERS = (json.loads(read("docs", name)) for name in ("lines.schema.json", "registry.schema.json"))
KINDS = SAID["$defs"]
ALL = {**KINDS, **ANSWERS["$defs"]}  # none has a name of the other's


def judge() -> bool:
    """Whether Python's `jsonschema` is there, which judges."""
    return find_spec("jsonschema") is not None


@functools.cache
def validator(kind: str) -> Any:
    from jsonschema import Draft202012Validator  # type: ignore[import]
    for it in (SAID, ANSWERS):
        Draft202012Validator.check_schema(it)
    return Draft202012Validator(whole(ALL[kind]))


def in_digits(value: Any) -> Any:
    """A value in which each number that was not written in digits alone is one that is not whole: a validator reads 1.0
    as 1."""
    if isinstance(value, float):
        return 0.5
    if isinstance(value, list):
        return [in_digits(it) for it in value]
    return {name: in_digits(it) for name, it in value.items()} if isinstance(value, dict) else value


def refused(pairs: Iterable[tuple[str, Any]]) -> list[int]:
    """The places of those pairs of a definition's name and a value in which the value is not of that definition."""
    return [place for place, (kind, value) in enumerate(pairs) if not validator(kind).is_valid(in_digits(value))]


def whole(form: Any) -> Any:
    """A definition with those that it refers to in their places, which is judged sooner. None refers to itself."""
    if isinstance(form, list):
        return [whole(it) for it in form]
    if not isinstance(form, dict):
        return form
    held = {name: whole(it) for name, it in form.items() if name != "$ref"}
    if "$ref" not in form:
        return held
    referred = whole(ALL[form["$ref"].rpartition("/")[2]])
    return {"allOf": [referred], **held} if held else referred
