#!/usr/bin/env python3
"""Compares the exercises of examples/ with what the built program says of them.

    python3 tools/exercises.py [EXERCISE ..] [--program PROGRAM]
    python3 tools/exercises.py --write

An exercise is a folder of examples/ with a script, a recorder or two machines, in Python or played by the program, and
with the report, the review and the picture of its recording. The recording is made anew in a temporary folder; then
`audit` has to find an order, what `check` and `review` print has to be report.txt and review.txt, and what `chart` draws
picture.svg. All are compared, too, with what tools/pages computes of the recording, which knows nothing of the program.
So are the pictures that the pages show: docs/losses.svg is that of examples/losses.dsrc, docs/missing.svg that of
examples/one_send_missing.dsrc, docs/staff/first.svg that of examples/first. Where a source for `plan` stands beside a
script, as exercise.plan in a folder or convoy.plan, the script has to be the plain script that `plan` writes of it.
--write makes all these files anew, of what tools/pages computes.

The last line is `N tried, M wrong`, with status 1 where something is wrong. It is no part of the gate.
"""
import argparse
import os
import socket
import subprocess
import sys
import tempfile
from pathlib import Path

sys.dont_write_bytecode = True

import pages
from pages.drawings import answer_to_chart

TOP = Path(__file__).resolve().parent.parent
EXAMPLES = TOP / "examples"
LONGEST = 60  # seconds for a program
# Where else the picture of an exercise stands.
SHOWN = {"first": [TOP / "docs/staff/first.svg"]}
# The recordings of which pages show the picture.
DRAWN = {"losses.dsrc": [TOP / "docs/losses.svg"], "one_send_missing.dsrc": [TOP / "docs/missing.svg"]}


def arguments():
    form = argparse.RawDescriptionHelpFormatter
    parser = argparse.ArgumentParser(description=__doc__, formatter_class=form)
    parser.add_argument("exercises", nargs="*", metavar="EXERCISE", help="folders of examples/; all if none is given")
    default = TOP / "crates" / "siman" / "out" / "siman"
    parser.add_argument("--program", type=Path, default=default, help="crates/siman/out/siman if not given")
    parser.add_argument("--write", action="store_true", help="makes the reports, the reviews and the pictures anew")
    given = parser.parse_args()
    if not os.access(given.program, os.X_OK):
        parser.error(f"there is no program {given.program}: ./siman --build builds it")
    given.program = given.program.resolve()
    return given


def run(*words):
    """What a program prints that ends well; what it says where it does not."""
    done = subprocess.run(list(map(str, words)), capture_output=True, timeout=LONGEST, stdin=subprocess.DEVNULL)
    return done.stdout if done.returncode == 0 else done.stdout + done.stderr + f"status {done.returncode}\n".encode()


def printed(told):
    """What a program prints that answers so, as `run` has it."""
    return told.out if told.status == 0 else told.out + told.errors + f"status {told.status}\n".encode()


def free_address():
    """An address of the loopback that nobody uses."""
    with socket.socket(socket.AF_INET, socket.SOCK_DGRAM) as it:
        it.bind(("127.0.0.1", 0))
        return f"127.0.0.1:{it.getsockname()[1]}"


def piece_of_machines(machine, folder):
    """The pieces of two machines, once both have ended."""
    names, addresses = [folder / "control.dsrc", folder / "simulator.dsrc"], [free_address(), free_address()]
    words = [sys.executable, machine, "simulator", names[1], *reversed(addresses)]
    with subprocess.Popen(list(map(str, words)), stdout=subprocess.PIPE) as simulator:
        simulator.stdout.readline()
        run(sys.executable, machine, "control", names[0], *addresses)
        simulator.wait(LONGEST)
    return names


def pieces_of(program, exercise, folder):
    """The pieces of an exercise on two machines."""
    if (exercise / "machine.py").is_file():
        return piece_of_machines(exercise / "machine.py", folder)
    run("sh", exercise / "run", folder / "made", program)
    return [folder / "made" / "manager.dsrc", folder / "made" / "simulator.dsrc"]


def made_recording(program, exercise, folder):
    """The recording of an exercise, made anew, and the lines that its making has to print with those that it prints."""
    recording, script = folder / "exercise.dsrc", exercise / "exercise.script"
    if script.is_file():
        line, (told, text) = run(program, "world", script, recording), pages.answer_to_world(script.read_bytes())
        return recording, [("world", told.out, line), ("what world writes", text, recording.read_bytes())]
    if (exercise / "recorder.py").is_file():
        return recording, [("its recorder", b"", run(sys.executable, exercise / "recorder.py", recording))]
    compared, names = [], pieces_of(program, exercise, folder)
    for name in names:
        order = run(program, "audit", name, folder / "piece.dsct", "--force")
        compared.append((f"audit of {name.name}", pages.answer_to_audit(name.read_bytes()).out, order))
    line, text = pages.answer_to_join([(name.name, name.read_bytes()) for name in names], "closed")
    compared.append(("join", line.out, run(program, "join", *names, recording, "form=closed")))
    compared.append(("what join writes", text, recording.read_bytes()))
    return recording, compared


def compared_texts(program, exercise, folder, is_written):
    """Of an exercise what is compared: a name, what it should be and what it is."""
    source, compared = exercise / "exercise.plan", []
    if source.is_file():
        compared += compared_source(program, source, folder, is_written)
    recording, made = made_recording(program, exercise, folder)
    compared += made
    certificate, text = folder / "exercise.dsct", recording.read_bytes()
    compared.append(("audit", pages.answer_to_audit(text).out, run(program, "audit", recording, certificate)))
    report = pages.answer_to_check(text, certificate.read_bytes()).out, run(program, "check", recording, certificate)
    review = pages.answer_to_review(text).out, run(program, "review", recording)
    for name, both in {"report.txt": report, "review.txt": review}.items():
        compared += compared_file(exercise / name, *both, is_written)
    shown = [exercise / "picture.svg", *SHOWN.get(exercise.name, [])]
    return compared + compared_pictures(program, recording, certificate, shown, is_written)


def compared_file(path, computed, printed, is_written):
    """A file that stands, beside what the pages have of it and what the program has."""
    if is_written:
        path.write_bytes(computed)
    stands = path.read_bytes()
    yield f"{path.name} as the pages have it", stands, computed
    yield f"{path.name} as the program has it", stands, printed


def compared_pictures(program, recording, certificate, paths, is_written):
    """The lines of a picture, and the picture under each of these paths; without a certificate that of the recording alone."""
    made = recording.with_suffix(".svg")
    told, drawn = answer_to_chart(recording.read_bytes(), None if certificate == "-" else certificate.read_bytes())
    compared = [("chart", printed(told), run(program, "chart", recording, certificate, made))]
    for path in paths:
        compared += compared_file(path, drawn.encode(), made.read_bytes(), is_written)
    return compared


def compared_recording(program, name, folder, is_written):
    """The answer of `audit` about a recording of the examples, and the picture that the pages show of it, if they do."""
    lines = (EXAMPLES / f"{name}.hex").read_text(encoding="ascii").splitlines()
    recording, certificate = folder / name, folder / "order.dsct"
    recording.write_bytes(bytes.fromhex(" ".join(line.partition("#")[0] for line in lines)))
    told = pages.answer_to_audit(recording.read_bytes())
    compared = [("audit", printed(told), run(program, "audit", recording, certificate))]
    order = certificate if told.status == 0 else "-"
    return compared + compared_pictures(program, recording, order, DRAWN[name], is_written)


def compared_source(program, source, folder, is_written):
    """What `plan` says of a source, and the script that it writes, which stands beside it."""
    made = folder / "made.script"
    told, script = pages.answer_to_plan(source.read_bytes())
    compared = [("plan", printed(told), run(program, "plan", source, made))]
    return compared + list(compared_file(source.with_suffix(".script"), script, made.read_bytes(), is_written))


def compared_of(program, name, folder, is_written):
    """What is compared of a folder, a source or a recording of the examples."""
    if (EXAMPLES / name).is_dir():
        return compared_texts(program, EXAMPLES / name, folder, is_written)
    if name.endswith(".plan"):
        return compared_source(program, EXAMPLES / name, folder, is_written)
    return compared_recording(program, name, folder, is_written)


def main():
    given = arguments()
    makers = ("exercise.script", "recorder.py", "machine.py", "run")
    names = given.exercises or sorted({path.parent.name for maker in makers for path in EXAMPLES.glob(f"*/{maker}")})
    tried = wrong = 0
    names += [] if given.exercises else [*DRAWN, *sorted(path.name for path in EXAMPLES.glob("*.plan"))]
    for name in names:
        with tempfile.TemporaryDirectory() as folder:
            for told, expected, came in compared_of(given.program, name, Path(folder), given.write):
                tried += 1
                if expected != came:
                    wrong += 1
                    print(f"wrong: {name}: {told}: expected {expected!r}; came {came!r}")
    print(f"{tried} tried, {wrong} wrong")
    return 1 if wrong or not tried else 0


if __name__ == "__main__":
    sys.exit(main())
