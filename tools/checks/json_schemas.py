"""Checks documents against the schemas of a folder: JSON Schema 2020-12, as far as these schemas use it.

A keyword that isn't known here is refused when the schema is read, so that none is passed over.
"""
from __future__ import annotations

import json
import re
from pathlib import Path
from typing import Any, Callable, Dict, Iterable, Iterator, List, Optional, Tuple, Union

TELL_NOTHING = {"$schema", "$defs", "title", "description", "required"}
TYPES = {"object": dict, "array": list, "string": str, "boolean": bool, "null": type(None)}


class Misfit(Exception):
    """A value isn't what its schema says: where it stands, and why."""

    def __init__(self, why):
        super().__init__(why)
        self.why, self.place = why, []

    def __str__(self) -> str:
        return f"at /{'/'.join(map(str, reversed(self.place)))}: {self.why}"


def shown(value: Any) -> str:
    return json.dumps(value)[:60]


def within(key: Union[int, str], check: Callable[..., Any], value: Any) -> None:
    """Checks a part of a value."""
    try:
        check(value)
    except Misfit as fault:
        fault.place.append(key)
        raise


def equal(one: Any, other: str) -> bool:
    """Whether two values are the same; unlike Python's, the numbers 0 and 1 aren't false and true."""
    return type(one) is type(other) and one == other


def has_type(value: Any, name: str) -> bool:
    return isinstance(value, int) and not isinstance(value, bool) if name == "integer" else isinstance(value, TYPES[name])


class Schemas:
    """The schemas of a folder, each under its file's name without the ending."""

    def __init__(self, folder):
        self.read = {path.stem: json.loads(path.read_text(encoding="utf-8")) for path in Path(folder).glob("*.json")}
        self.known = {}
        self.checks = {name: self.check_of(name, schema) for name, schema in self.read.items()}

    def fault(self, name: str, document: Dict[str, Any]) -> Optional[str]:
        """What is wrong with a document by the schema of this name, as a text; None where it fits."""
        try:
            self.checks[name](document)
        except Misfit as misfit:
            return str(misfit)
        return None

    def check_of(self, name: str, schema: Dict[str, Any]) -> Callable[..., Any]:
        """A function that raises Misfit for a value which doesn't fit a schema of this file."""
        checks = [getattr(self, f"by_{keyword.lstrip('$')}")(name, value, schema) for keyword, value in schema.items() if keyword not in TELL_NOTHING]
        if len(checks) == 1:
            return checks[0]

        def check(value):
            for one in checks:
                one(value)

        return check

    def target(self, name: str, reference: str) -> Tuple[str, Dict[str, Any]]:
        """The file and the schema that a reference names."""
        file, _, pointer = reference.partition("#")
        name = file[:-len(".json")] if file else name
        schema = self.read[name]
        for key in pointer.split("/")[1:]:
            schema = schema[key]
        return name, schema

    def by_ref(self, name: str, reference: str, _: Dict[str, str]) -> Callable[..., Any]:
        file, schema = self.target(name, reference)
        key = file, reference.partition("#")[2]
        if key not in self.known:
            self.known[key] = self.check_of(file, schema)
        return self.known[key]

    def by_type(self, _: str, wanted: str, __: Dict[str, Any]) -> Callable[..., Any]:
        def check(value):
            if not has_type(value, wanted):
                raise Misfit(f"{shown(value)} is no {wanted}")

        has_type(None, wanted)
        return check

    def by_const(self, _: str, wanted: str, __: Dict[str, str]) -> Callable[..., Any]:
        return self.by_enum(_, [wanted], __)

    def by_enum(self, _: str, wanted: List[str], __: Dict[str, Any]) -> Callable[..., Any]:
        def check(value):
            if not any(equal(value, one) for one in wanted):
                raise Misfit(f"{shown(value)} is none of {shown(wanted)}")

        return check

    def by_pattern(self, _: str, pattern: str, __: Dict[str, str]) -> Callable[..., Any]:
        # `$` is the end of the text alone
        form = re.compile(re.sub(r"\$$", r"\\Z", pattern))

        def check(value):
            if isinstance(value, str) and not form.search(value):
                raise Misfit(f"{shown(value)} hasn't the form {pattern}")

        return check

    def by_minimum(self, _: str, least: int, __: Dict[str, Union[int, str]]) -> Callable[..., Any]:
        def check(value):
            if has_type(value, "integer") and value < least:
                raise Misfit(f"{value} is less than {least}")

        return check

    def by_maximum(self, _: str, most: int, __: Dict[str, Union[int, str]]) -> Callable[..., Any]:
        def check(value):
            if has_type(value, "integer") and value > most:
                raise Misfit(f"{value} is more than {most}")

        return check

    def by_minItems(self, _: str, least: int, __: Dict[str, Any]) -> Callable[..., Any]:
        def check(value):
            if isinstance(value, list) and len(value) < least:
                raise Misfit(f"there are fewer than {least} items")

        return check

    def by_maxItems(self, _: str, most: int, __: Dict[str, Any]) -> Callable[..., Any]:
        def check(value):
            if isinstance(value, list) and len(value) > most:
                raise Misfit(f"there are more than {most} items")

        return check

    def by_items(self, name: str, schema: Dict[str, Any], _: Dict[str, Any]) -> Callable[..., Any]:
        item = self.check_of(name, schema)

        def check(value):
            for place, one in enumerate(value if isinstance(value, list) else ()):
                within(place, item, one)

        return check

    def by_properties(self, name: str, properties: Dict[str, Dict[str, Any]], schema: Dict[str, Any]) -> Callable[..., Any]:
        checks = {key: self.check_of(name, one) for key, one in properties.items()}
        required = schema.get("required", [])

        def check(value):
            if not isinstance(value, dict):
                return
            for key in required:
                if key not in value:
                    raise Misfit(f"{key} is missing")
            for key, one in checks.items():
                if key in value:
                    within(key, one, value[key])

        return check

    def by_additionalProperties(self, _: str, allowed: bool, schema: Dict[str, Any]) -> Callable[..., Any]:
        assert allowed is False, "additionalProperties is known here as false alone"
        known = schema["properties"].keys()

        def check(value):
            if isinstance(value, dict) and not value.keys() <= known:
                raise Misfit(f"{sorted(value.keys() - known)[0]} isn't known")

        return check

    def by_oneOf(self, name: str, schemas: Any, _: Any) -> Any:
        tag = self.tag(name, schemas)
        checks = [self.check_of(name, one) for one in schemas]

        def check(value):
            faults = []
            for one in checks:
                try:
                    one(value)
                except Misfit as fault:
                    faults.append(fault)
            if len(checks) - len(faults) != 1:
                raise Misfit(f"{shown(value)} fits {len(checks) - len(faults)} of {len(checks)} schemas" + "".join(f"; {fault}" for fault in faults[:3]))

        return check if tag is None else self.by_tag(*tag, checks)

    def tag(self, name: str, schemas: List[Dict[str, Any]]) -> Optional[Tuple[str, List[str]]]:
        """The key and its values, where each of the schemas asks for another value of one key: then at most one of them can fit."""
        resolved = [self.target(name, one["$ref"])[1] if "$ref" in one else one for one in schemas]
        keys = resolved[0].get("properties", {})
        for key in keys:
            values = [one["properties"][key].get("const") if key in one.get("required", ()) else None for one in resolved]
            if all(isinstance(value, str) for value in values) and len(set(values)) == len(values):
                return key, values
        return None

    @staticmethod
    def by_tag(key: str, values: List[str], checks: List[Callable[..., Any]]) -> Callable[..., Any]:
        of_value = dict(zip(values, checks))

        def check(value):
            tagged = value.get(key) if isinstance(value, dict) else None
            if not isinstance(tagged, str) or tagged not in of_value:
                raise Misfit(f"{shown(value)} has no {key} of {', '.join(values)}")
            of_value[tagged](value)

        return check


# ---- whether a schema sees damages


def parts(value: Any, place: str = "/") -> Iterator[Tuple[str, Any]]:
    """Each list and object in a document, with the keys and numbers that lead to it."""
    if isinstance(value, (dict, list)):
        yield place, value
        for key, one in value.items() if isinstance(value, dict) else enumerate(value):
            yield from parts(one, f"{place}{key}/")


def damages(part: Any) -> Iterator[Any]:
    """Damages an object or a list: one key less, one more, or a value of another type. Each is undone when the next is asked for."""
    keys = list(part) if isinstance(part, dict) else range(len(part))
    for key in keys:
        value, part[key] = part[key], 0.5
        yield f"{key} is another value"
        part[key] = value
    if isinstance(part, dict):
        for key in keys:
            value = part.pop(key)
            yield f"{key} is missing"
            part[key] = value
        part["unknown"] = 0
        yield "another key"
        del part["unknown"]


def undetected(schemas: Schemas, name: str, document: Dict[str, Any], optional: Iterable[str] = ()) -> List[Any]:
    """The damages of a document that its schema doesn't see, but for what may be missing."""
    return [f"{place}{what}" for place, part in list(parts(document)) for what in damages(part)
            if schemas.fault(name, document) is None and f"{place}{what}" not in optional]
