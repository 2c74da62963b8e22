#!/usr/bin/env python3
"""tools/lines.py [--table]: lines in JSON, beside docs/integrators/lines.schema.json.

Says where a line of JSON that a case, a page or an example has is not as the schema describes it: a line or a key that
the schema lacks, keys in another order, a value of another type or out of its range. Says, too, which line, key or value
of the schema no case has, and where the table in FORMATS is not that of the schema. --table prints that table. The cases
of `plan` are the sources of tools/cases/plan_rows.py, as tools/pages spells their lines.
"""

import json
import pathlib
import re
import sys

sys.dont_write_bytecode = True

import pages
from cases import plan_rows

TOP = pathlib.Path(__file__).resolve().parent.parent
SCHEMA = TOP / "docs/integrators/lines.schema.json"
PAGE = TOP / "docs/integrators/FORMATS.md"
HEAD = "| Line | What it is | Keys, in their order |"
TYPES = {"integer": int, "string": str, "array": list, "boolean": bool, "object": dict, "null": type(None)}
KNOWN = {"description", "type", "minimum", "maximum", "pattern", "enum", "const", "items", "minItems", "anyOf", "$ref"}


def name_of(part):
    return part["$ref"].rsplit("/", 1)[1]


def is_of(value, part, values, seen):
    """Whether a value is as a part of the schema says; `seen` gets what it is as, by names."""
    unknown = set(part) - KNOWN
    if unknown:
        raise ValueError(f"the schema has {', '.join(sorted(unknown))}, which this look does not know")
    if "$ref" in part:
        seen.add(name_of(part))
        return is_of(value, values[name_of(part)], values, seen)
    if "anyOf" in part:
        return any(is_of(value, other, values, seen) for other in part["anyOf"])
    if "type" in part:
        if not isinstance(value, TYPES[part["type"]]) or (part["type"] == "integer" and isinstance(value, bool)):
            return False
        if part["type"] == "null":
            seen.add("null")
    if "const" in part and value != part["const"]:
        return False
    if "enum" in part and value not in part["enum"]:
        return False
    if "minimum" in part and not part["minimum"] <= value <= part["maximum"]:
        return False
    if "pattern" in part and not re.search(part["pattern"], value):
        return False
    if "items" in part and not (len(value) >= part["minItems"] and all(is_of(x, part["items"], values, seen) for x in value)):
        return False
    return True


def wrong_in(line, schema, seen):
    """What is wrong with a line: its text, or nothing. `seen` counts which keys of which lines were there."""
    pairs = json.loads(line, object_pairs_hook=list)
    keys = [key for key, _ in pairs]
    if not keys or keys[0] != "line":
        return "its first key is not `line`"
    values = schema["$defs"]
    rule = values.get(f"{pairs[0][1]}-line")
    if rule is None or {"$ref": f"#/$defs/{pairs[0][1]}-line"} not in schema["oneOf"]:
        return f"the schema has no line `{pairs[0][1]}`"
    order = list(rule["properties"])
    for key in keys:
        if key not in order:
            return f"the schema has no key `{key}` there"
    if [key for key in order if key in keys] != keys:
        return "its keys have another order, or one stands twice"
    lacking = [key for key in rule["required"] if key not in keys]
    if lacking:
        return f"the key `{lacking[0]}` is not there"
    if "anyOf" in rule and not any(set(other["required"]) <= set(keys) for other in rule["anyOf"]):
        return "keys are not there of which some have to be"
    for key, value in pairs:
        here = set()
        if not is_of(value, rule["properties"][key], values, here):
            return f"`{key}` is no such value"
        seen.setdefault((pairs[0][1], key), set()).update(here)
    return None


def lines_of(path):
    for number, text in enumerate(path.read_text(encoding="utf-8").splitlines(), 1):
        found = re.fullmatch(r'(?:text )?(\{"line":.*\})', text)
        if found:
            yield number, found[1]


def lines_of_plans():
    """The lines of `plan` for the sources that tools/plans.py tries it with, each with the number of the source."""
    sources = [plan_rows.HEAD + tail for tail, *_ in plan_rows.GOOD] + [text for text, *_ in plan_rows.WHOLE]
    for number, text in enumerate(sources):
        for line in pages.plan_of(text).lines:
            yield number, pages.json_of(line)


def table(schema):
    values = schema["$defs"]
    rows = [HEAD, "|---|---|---|"]
    for part in schema["oneOf"]:
        name = name_of(part)
        rule = values[name]
        keys = []
        for key, value in rule["properties"].items():
            if key == "line":
                continue
            kind = " or ".join(name_of(other) if "$ref" in other else other["type"] for other in value.get("anyOf", [value]))
            optional = "" if key in rule["required"] else "; not always"
            keys.append(f"`{key}` ({kind}{optional})")
        rows.append(f"| `{name.removesuffix('-line')}` | {rule['description']} | {', '.join(keys)} |")
    rows += ["", "| Value | What it is |", "|---|---|"]
    names = [name_of(part) for part in schema["oneOf"]]
    for name, value in values.items():
        if name in names:
            continue
        said = value["description"]
        if "enum" in value:
            said += ": " + ", ".join(f"`{word}`" for word in value["enum"])
        if "maximum" in value:
            said += f", {value['minimum']} to {value['maximum']}"
        rows.append(f"| {name} | {said} |")
    return "\n".join(rows)


def main():
    schema = json.loads(SCHEMA.read_text(encoding="utf-8"))
    if sys.argv[1:] == ["--table"]:
        print(table(schema))
        return 0
    if sys.argv[1:]:
        print(__doc__)
        return 2
    seen, tried, wrong = {}, 0, 0
    cases = sorted((TOP / "crates/siman_cases/data").glob("*.cases"))
    pages = [TOP / "README.md", *sorted((TOP / "docs").rglob("*.md"))]
    for path in cases + pages:
        for number, line in lines_of(path):
            tried += 1
            said = wrong_in(line, schema, seen if path in cases else {})
            if said:
                wrong += 1
                print(f"{path.relative_to(TOP)}:{number}: {said}: {line[:100]}")
    for number, line in lines_of_plans():
        tried += 1
        said = wrong_in(line, schema, seen)
        if said:
            wrong += 1
            print(f"source {number} of tools/cases/plan_rows.py: {said}: {line[:100]}")
    texts = "\n".join(path.read_text(encoding="utf-8") for path in cases)
    for part in schema["oneOf"]:
        for key, value in schema["$defs"][name_of(part)]["properties"].items():
            name = name_of(part).removesuffix("-line")
            here, may_be_null = seen.get((name, key)), {"type": "null"} in value.get("anyOf", [])
            if here is None:
                wrong += 1
                print(f"no case has `{key}` of the line `{name}`")
            elif may_be_null and "null" not in here and not re.search(rf"(?m)^text {name} .*\b{key}=-", texts):
                wrong += 1
                print(f"no case has null as `{key}` of the line `{name}`, nor `-` in text")
    if table(schema) not in PAGE.read_text(encoding="utf-8"):
        wrong += 1
        print(f"{PAGE.relative_to(TOP)}: its table of lines is not what --table prints")
    print(f"{tried} lines in JSON, {wrong} wrong")
    return 1 if wrong else 0


if __name__ == "__main__":
    sys.exit(main())
