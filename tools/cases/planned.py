"""Writes the cases of `plan`: what is printed and written follows from the page alone (tools/cases/plan_rows.py).

    cd tools && python3 -m cases.planned > ../crates/siman_cases/data/plans.cases
"""
from cases import plan_rows as rows
from cases.drawn import file
from cases.failing import pieces
from pages.plan import answer_to_plan
from pages.reviews import json_of

# A longer source stands in the tries from outside alone.
SHORT = 10_000


def printed(lines):
    return b"".join(line + b"\n" for line in lines)


def case(name, source, options=(), status=0, out=b"", errors=b"", script=None, make=False):
    """A case of a source; with `script`, of the plain script that is made; with `make`, of one that is not."""
    made = script is not None or make
    yield from ["", f"case {name}", *file("source", source), f"words plan {' '.join(['source', *(['new'] if made else []), *options])}", "asked source"]
    if made:
        yield "asked make new"
    yield from [f"status {status}"] if status else []
    yield from ["out", *pieces(out)] if out else []
    yield from ["errors", *pieces(errors)] if errors else []
    yield from ["left", *pieces(script)] if script else []
    yield from ["discarded"] if make else []


def good():
    texts = [(rows.HEAD + behind, lines, rows.PLAIN_HEAD + plain) for behind, lines, plain in rows.GOOD] + rows.WHOLE
    for number, (source, lines, script) in enumerate(texts):
        if len(source) > SHORT:
            continue
        yield from case(f"a-source-{number}", source, out=printed(lines))
        yield from case(f"a-source-{number}-and-its-script", source, out=printed(lines), script=script)
        yield from case(f"a-source-{number}-in-json", source, ["--json"], out=answer_to_plan(source, json_of)[0].out)


def unread():
    texts = [*((rows.HEAD + behind, line) for behind, line in rows.UNREAD), *rows.UNREAD_WHOLE, *((rows.HEAD + behind, line) for behind, line in rows.UNNAMED)]
    for number, (source, line) in enumerate(texts):
        if len(source) <= SHORT:
            yield from case(f"no-source-{number}", source, status=2, errors=b"plan: bad-line at line %d\n" % line)


def refused():
    for number, (behind, lines, told) in enumerate(rows.REFUSED):
        source = rows.HEAD + behind
        yield from case(f"a-refused-move-{number}", source, status=2, out=printed(lines), errors=b"world: %s\n" % told)
        yield from case(f"a-refused-move-{number}-and-no-script", source, status=2, out=printed(lines), errors=b"world: %s\n" % told, make=True)


def main():
    print("# Sources, what each of their lines does, and their plain scripts. The lines were made by tools/cases/planned.py.")
    for line in (*good(), *unread(), *refused()):
        print(line)


if __name__ == "__main__":
    main()
