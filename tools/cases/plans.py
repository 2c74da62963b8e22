"""What `plan` says of sources, and the scripts that it writes: the page's example, made-up sources, scripts, mistakes."""
import random
import re
from collections import Counter

import pages
from cases import plan_rows
from cases.examples import PLAN_LINES, PLAN_SCRIPT, PLAN_SOURCE, TOP, WORKED_SCRIPT
from cases.made_scripts import Script, spoilt_script
from cases.made_sources import Source, spoilt_source
from cases.reviews import JSON
from cases.trials import UNWRITTEN, Case, Some, Verdict, told
from cases.worlds import after, made_up_script
from pages import Outcome

MADE_UP, SPOILT, SCRIPTS = 300, 900, 200
WHOLE_ERRORS = (Outcome(2, b"", b"plan: bad-line at line 1\n  why\n"),)  # so that second lines are not left out


# What a script comes to.

def fields_of(words):
    return dict(word.split("=", 1) for word in words)


def word_of(kind, fields):
    """The word of an answer, by the numbers that `show` has of it."""
    if kind == "acknowledge":
        return pages.named(pages.RESPONSES, int(fields["response"]))
    return pages.named(pages.RESULTS, int(fields["result"])) if kind == "action-response" else kind


def entries_of(shown):
    """The entries that `show` prints, each with what a line of `plan` may claim of it."""
    stations, entries, sent = {}, [], 0
    for line in shown.decode().splitlines()[1:]:
        words = line.split(" ")
        if words[0] == "station":
            stations[words[1]] = words[2]
        elif words[1] == "told":
            entries.append({"what": "told", "station": stations[words[2]], "entity": words[3], "state": words[4]})
        elif words[0] != "opening":
            fields = fields_of(words[5:])
            entry = {**fields, "what": words[1], "station": stations[words[2]], "kind": words[4], "text": words[4:]}
            entries.append(entry | {"number": str(sent), "response": word_of(words[4], fields)})
            sent += words[1] == "sent"
    return entries


def claims_of(name, says):
    """The entries of a move, by the line of `plan`: what it claims of each."""
    if name == "tell":
        station, _, entity = says["entity"].rpartition(":")
        return [{"what": "told", "station": station, "entity": entity, "state": says["state"]}]
    if name == "deliver":
        whole = {key: says[key] for key in ("kind", "from", "to", "request")}
        answer = {"number": says["answers"], "response": says["response"], "request": says["request"], "to": says["from"]}
        answers = [{"what": "sent", "station": says["at"], **answer}] if says["answers"] != "-" else []
        return [{"what": "received", "station": says["at"], **whole}, *answers]
    sent = {"what": "sent", "number": says["sends"]}
    if name == "tick":
        return [sent | {"station": says["at"], "request": says["repeats"]}] if says["sends"] != "-" else []
    kind = next(body[0] for kind, body in pages.BODIES.items() if body[0].startswith(KINDS.get(name, name)))
    return [sent | {"station": says["from"], "kind": kind, "to": says["to"], "request": says["request"]}]


KINDS = {"do": "action-request", "query": "data-query", "set": "set-data"}


def moves_of(lines):
    words = [line.split(" ") for line in lines]
    return [(it[2], fields_of(it[3:])) for it in words if it[0] == "move"]


def contradiction(out, shown):
    """What the lines of `plan` say and the entries of the recording do not, or None."""
    lines, entries = out.decode().splitlines(), entries_of(shown)
    moves, sent = moves_of(lines), [entry for entry in entries if entry["what"] == "sent"]
    claims = [claim for move in moves for claim in claims_of(*move)]
    if len(claims) != len(entries):
        return f"{len(claims)} entries, and there are {len(entries)}"
    for claim, entry in zip(claims, entries):
        if not claim.items() <= entry.items():
            return f"{claim}, and there is {entry}"
    received = [entry for entry in entries if entry["what"] == "received"]
    brings = [int(says["brings"]) for name, says in moves if name == "deliver"]
    if any(entry["text"] != sent[place]["text"] for entry, place in zip(received, brings)):
        return "a datagram is brought that is another"
    return contradiction_of_counts(lines, moves, brings, len(sent))


def contradiction_of_counts(lines, moves, brings, sent):
    """The same of what is lost and copied, and of the last line."""
    told_lost = [int(line.split(" ")[1]) for line in lines if line.startswith("lost ")]
    if told_lost != sorted(set(range(sent)) - set(brings)):
        return f"lost {told_lost}"
    places = [f"{says['brings']} {says['at']}" for name, says in moves if name == "deliver"]
    times = {place: str(count) for place, count in Counter(places).items() if count > 1}
    copied = [line.split(" ") for line in lines if line.startswith("copied ")]
    if {f"{it[1]} {it[3][3:]}": it[4][6:] for it in copied} != times or len(copied) != len(times):
        return f"copied {copied}"
    counts = fields_of(lines[-1].split(" ")[1:])
    return None if (counts["moves"], counts["datagrams"]) == (str(len(moves)), str(sent)) else lines[-1]


def laws(trials, source, name):
    """The script that `plan` writes of a source: what `world` and `show` have of it, and what `plan` has of it."""
    script, recording, again = (f"{name}.{end}" for end in ("script", "dsrc", "again"))
    case = Case(["plan", source, script], ())
    came = trials.run(case)
    if came.status or not (trials.folder / script).exists():
        return [Verdict(told(case), (0, True), (came.status, (trials.folder / script).exists()))]
    world = trials.run(Case(["world", script, recording], ()))
    datagrams = came.out.rpartition(b"datagrams=")[2]
    verdicts = [Verdict(told(case, ", then world"), (True,), world.status == 0 and world.out.endswith(b" sent=" + datagrams))]
    shown = trials.run(Case(["show", recording], ()))
    verdicts.append(Verdict(told(case, ", then world and show"), (None,), held(came.out, shown.out)))
    trials.run(Case(["plan", script, again], ()))
    same = (trials.folder / again).exists() and (trials.folder / again).read_bytes() == (trials.folder / script).read_bytes()
    return [*verdicts, Verdict(told(case, ", then plan of that"), (True,), same)]


def held(out, shown):
    """The contradiction, where both can be read."""
    try:
        return contradiction(out, shown)
    except (KeyError, IndexError, ValueError, StopIteration) as why:
        return f"what cannot be read: {why!r}"


# Sources.

def is_reasoned(errors, text, line):
    """Whether the fault of a line has a second line, with the line and a column of it."""
    first, _, rest = errors.partition(b"\n")
    lines = text.removeprefix(b"\xef\xbb\xbf").split(b"\n")
    reason = re.fullmatch(rb"  (?:line (\d+), column (\d+): )?(.+)\n", rest)
    if first != b"plan: bad-line at line %d" % line or not reason:
        return False
    is_of_all = line == 0 or line >= len(lines)
    if reason[1] is None:
        return is_of_all or b"looks like" in reason[3]
    return int(reason[1]) == line and (is_of_all or 1 <= int(reason[2]) <= len(lines[line - 1]) + 4)


def try_reason(trials, source, text, plan):
    line = int(plan.fault.rpartition(" ")[2])
    case = Case(["plan", source], WHOLE_ERRORS)

    def tried():
        came = trials.run(case)
        return [Verdict(told(case, ", the second line"), (True,), is_reasoned(came.errors, text, line))]

    trials.tasks.append(tried)


def try_source(trials, text, seen, name=None):
    """A source: its lines in both spellings, or its fault; the script that is made, and what that comes to."""
    plan = pages.plan_of(text)
    source = name or trials.file(text)
    script = f"{source.replace('/', '.')}.script"
    after(trials, ["plan", source, script], (pages.told_of_plan(plan),), script, lambda left: left == plan.plain)
    trials.expect(["plan", source, *JSON], pages.told_of_plan(plan, pages.json_of))
    if plan.plain is not None:
        trials.tasks.append(lambda: laws(trials, source, f"{source.replace('/', '.')}.law"))
    elif plan.fault.startswith("plan: bad-line"):
        try_reason(trials, source, text, plan)
    note(seen, plan)
    return plan


def note(seen, plan):
    """What there was: the fault, the lines by their names, and the words of answers."""
    seen.add(str(plan.fault).partition(" at ")[0])
    for line in map(pages.text_of, plan.lines):
        words = line.split(" ")
        seen.add(" ".join([words[0], *(words[2:3] if words[0] in ("move", "warning") else [])]))
        seen |= {word for word in words if word.startswith(("response=", "state="))}


def try_worked(trials, seen):
    """The example of the page, from a file and from standard input."""
    text, script = (TOP / PLAN_SOURCE).read_bytes(), (TOP / PLAN_SCRIPT).read_bytes()
    usual = Outcome(0, PLAN_LINES, b"")
    trials.state("the example of plan", (usual, script), pages.answer_to_plan(text))
    after(trials, ["plan", PLAN_SOURCE, "convoy.made"], (usual,), "convoy.made", lambda left: left == script)
    after(trials, ["plan", "-", "convoy.given"], (usual,), "convoy.given", lambda left: left == script, given=text)
    trials.expect(["plan", PLAN_SOURCE], usual)
    for words in (["-"], ["/dev/stdin"]):
        trials.expect(["plan", *words], usual, given=text)
        trials.expect(["plan", *words, *JSON], pages.answer_to_plan(text, pages.json_of)[0], given=text)
    try_source(trials, text, seen, PLAN_SOURCE)
    for place in range(len(text)):
        try_source(trials, text[:place], seen)


def rows():
    """Sources with what is told of them, and the plain script."""
    head, plain = plan_rows.HEAD, plan_rows.PLAIN_HEAD
    good = [(head + tail, lines, plain + script) for tail, lines, script in plan_rows.GOOD] + plan_rows.WHOLE
    for text, lines, script in good:
        yield text, Outcome(0, b"".join(line + b"\n" for line in lines), b""), script
    unread = [(head + tail, line) for tail, line in plan_rows.UNREAD + plan_rows.UNNAMED] + plan_rows.UNREAD_WHOLE
    for text, line in unread:
        yield text, pages.fault(f"plan: bad-line at line {line}"), None
    for tail, lines, why in plan_rows.REFUSED:
        yield head + tail, Outcome(2, b"".join(line + b"\n" for line in lines), b"world: " + why + b"\n"), None


def try_rows(trials, seen):
    for number, (text, expected, script) in enumerate(rows()):
        trials.state(f"row {number} of plan, {text[:200]!r}", (expected, script), pages.answer_to_plan(text))
        try_source(trials, text, seen)


def try_made_up(trials, seen, made_up=range(MADE_UP), spoilt=range(SPOILT)):
    """Sources of these numbers without mistakes, and with some."""
    for number in made_up:
        try_source(trials, Source(random.Random(f"source {number}")).text(), seen)
    for number in spoilt:
        try_source(trials, spoilt_source(random.Random(f"spoilt {number}"))[0], seen)


def try_scripts(trials, seen):
    """A script is its own plain script, but for its spelling; what is none may be a source."""
    for path in [TOP / WORKED_SCRIPT, *sorted((TOP / "examples").glob("*/*.script"))]:
        try_source(trials, path.read_bytes(), seen)
    for number in range(SCRIPTS):
        chance = random.Random(f"script {number}")
        try_source(trials, made_up_script(chance), seen)
        try_source(trials, Script(chance).text(), seen)
        try_source(trials, spoilt_script(chance)[0], seen)


def sized(size):
    """A source whose plain script has so many bytes, with a query of all that fits into one, over and over."""
    line, left = b"query 1:1 2:3:0" + b" 4294967295" * 2038 + b"\n", size - len(plan_rows.PLAIN_HEAD)
    count, left = divmod(left - 8, len(line))
    ids, left = divmod(left - len(b"query 1:1 2:3:0 1\n"), len(b" 4294967295"))
    return plan_rows.HEAD + line * count + b"query 1:1 2:3:0 1" + b" 4294967295" * ids + b"\nat " + b"1" * (left + 4) + b"\n"


def try_sizes(trials, seen):
    """Sources whose plain scripts have as many bytes as a script may have, and more; and with most entities and orders."""
    for more in (-1, 0, 1, 47):
        text = sized(plan_rows.MOST + more)
        plan = try_source(trials, text, seen)
        trials.state(f"a plain script with {more} bytes more than the most", (more <= 0, len(text)), (plan.plain is not None, plan_rows.MOST + more - 48))
    opening = b"".join(b"opening 1:1 %d stopped\n" % number for number in range(1, 4098))
    try_source(trials, plan_rows.HEAD + opening, seen)
    try_source(trials, plan_rows.HEAD + opening[: -len(b"opening 1:1 4097 stopped\n")] + b"create 1:1 1:1:65534 as a\ndeliver a 1:1\n", seen)
    try_source(trials, plan_rows.HEAD + b"stop 1:1 all\n" * 4000 + b"at 10\n" + b"tick 1:1\n" * 500, seen)


def try_files(trials):
    for name in ["none", "", "x" * 300]:
        for words in ([name], [name, *JSON], [name, "new.script"]):
            trials.expect(["plan", *words], pages.unopened(name))
    trials.expect(["plan", "examples"], pages.unopened("examples", "is a directory"))
    for behind in [">/dev/full", ">&-"]:
        for words in ([PLAN_SOURCE], [PLAN_SOURCE, *JSON]):
            trials.expect(["plan", *words], UNWRITTEN, behind=behind)
    for name in ["examples", "none/there.script", "", "x" * 300, "/dev/full"]:
        trials.expect(["plan", PLAN_SOURCE, name], UNWRITTEN)
    trials.expect(["plan", "/dev/zero"], pages.fault("plan: bad-line at line 0"))
    for text in (None, b"fly\n", plan_rows.HEAD + b"tell 1:1 0\n", plan_rows.HEAD + b"lose 0\n"):
        try_standing(trials, text)


def try_standing(trials, text):
    """The example, or another source, and a file that stands under the name of the script; it is replaced only with --force."""
    source = PLAN_SOURCE if text is None else trials.file(text)
    answer, script = pages.answer_to_plan((TOP / PLAN_SOURCE).read_bytes() if text is None else text)
    stays, replaced = trials.file(b"stays"), trials.file(b"stays")
    after(trials, ["plan", source, stays], (pages.fault("output: exists"),), stays, lambda left: left == b"stays")
    after(trials, ["plan", source, replaced, "--force"], (answer,), replaced, lambda left: left == (script or b"stays"))


def try_words(trials):
    usage = Outcome(2, b"", Some())
    for words in [[], JSON, [PLAN_SOURCE, "a", "b"], [PLAN_SOURCE, *JSON, *JSON], [PLAN_SOURCE, "-x"], ["-x"], [PLAN_SOURCE, "--prose"], [PLAN_SOURCE, "--force"], [*JSON, *JSON, PLAN_SOURCE]]:
        trials.expect(["plan", *words], usage)
    for words in (["--json", PLAN_SOURCE, "first.script"], [PLAN_SOURCE, "--json", "second.script"]):
        trials.expect(["plan", *words], pages.answer_to_plan((TOP / PLAN_SOURCE).read_bytes(), pages.json_of)[0])


WANTED = {
    "None", "plan: bad-line", "plan: too-long", "lost", "copied", "plan", *(f"world: {name}" for name in ("no-such-send", "no-such-entity", "ids-spent", "too-long", "stations")),
    *(f"move {name}" for name in ("create", "remove", "start", "stop", "do", "query", "set", "deliver", "tick", "tell")),
    *(f"warning {name}" for name in ("nobody", "not-addressed", "undelivered", "back")),
    *(f"response={word}" for word in ("able", "unable", "complete", "rejected", "data", "-")), *(f"state={name}" for name in pages.STATES),
}  # fmt: skip


def try_all(trials, _):
    seen = set()
    try_worked(trials, seen)
    try_rows(trials, seen)
    try_made_up(trials, seen)
    try_scripts(trials, seen)
    try_sizes(trials, seen)
    try_files(trials)
    try_words(trials)
    trials.state("what the sources of plan lack", set(), WANTED - seen)
