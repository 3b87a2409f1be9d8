"""schema.py SCHEMA FILE: says where a file of JSON isn't of a schema, in the part of JSON Schema
that the cases use.
"""
import json
import re
import sys

TYPES = {"object": dict, "array": list, "string": str, "integer": int, "number": (int, float)}


def faults(schema, value, place="the file"):
    """The places where a value isn't of a schema."""
    if "enum" in schema and value not in schema["enum"]:
        yield f"{place} is none of {schema['enum']}"
    kind = schema.get("type")
    if kind and (not isinstance(value, TYPES[kind]) or isinstance(value, bool)):
        yield f"{place} is no {kind}"
        return
    if "pattern" in schema and not re.search(schema["pattern"], value):
        yield f"{place} doesn't match {schema['pattern']}"
    if isinstance(value, dict):
        yield from faults_of_object(schema, value, place)
    for number, item in enumerate(value if isinstance(value, list) else []):
        yield from faults(schema.get("items", {}), item, f"{place}[{number}]")
    if "oneOf" in schema:
        found = [list(faults(one, value, place)) for one in schema["oneOf"]]
        if sum(not some for some in found) != 1:
            yield f"{place} is of {sum(not some for some in found)} of its forms: {found}"


def faults_of_object(schema, value, place):
    known = schema.get("properties", {})
    for name in schema.get("required", []):
        if name not in value:
            yield f"{place} has no {name}"
    for name, member in value.items():
        yield from faults(schema.get("propertyNames", {}), name, f"a name of {place}")
        others = schema.get("additionalProperties", {})
        if name not in known and others is False:
            yield f"{place} has {name}"
        yield from faults(known.get(name, others or {}), member, f"{place}.{name}")


def main():
    schema, value = (json.load(open(path, encoding="utf-8")) for path in sys.argv[1:])
    found = list(faults(schema, value))
    print("\n".join(found[:5]) or "it is of the schema")
    return 1 if found else 0


if __name__ == "__main__":
    sys.exit(main())
