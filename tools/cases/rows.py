"""Worked examples of each command but `station`, to which memory is refused: literal files and the answers that they
have, or those that the pages give of them. What `station` does without memory is tried in stations.py."""
import pages
from cases import joins, texts
from cases.examples import TOP, WORKED_ANSWER, WORKED_LINE, WORKED_SCRIPT
from cases.failing import ABLE, CERTIFICATE, CREATE, RECORDING, REPORT, SWAPPED
from pages import Outcome, Recording, Station
from pages.drawings import answer_to_chart

COMMENT = "0701160500000000003000000001000100000002000300000000000000000001000000050000002848454C4C4F000000"
COMMENT_TOLD = (
    b"comment version=7 exercise=1 stamp=0 status=0 from=1:1:0 to=2:3:0 fixed=0 variable=1\n"
    b"variable 5 40 48454c4c4f\n"
)
TWELVE_BITS = "0701160500000000003000000001000100000002000300000000000000000001000000050000000CABC5000000000000"
TWELVE_TOLD = (
    b"comment version=7 exercise=1 stamp=0 status=0 from=1:1:0 to=2:3:0 fixed=0 variable=1\nvariable 5 12 abc0\n"
)
STATIONS = [Station(1, 1, []), Station(2, 3, [])]
# The same entries with the log of 2:3 first: another order than that of the file explains them.
MOVED = Recording(1, STATIONS, [
    texts.received(1, CREATE), texts.sent(1, ABLE), texts.sent(0, CREATE), texts.received(0, ABLE),
])  # fmt: skip
A, B = (texts.pdu(22, origin, (9, 9, 0)) for origin in ((1, 1, 0), (2, 3, 0)))
# Each station received what the other one sends only after that.
CROSSED = Recording(1, STATIONS, [texts.received(0, B), texts.sent(0, A), texts.received(1, A), texts.sent(1, B)])
BLOCKED = (
    b"blocked stations=2\nblocked 1:1 record=0 cause=12 never-sent\nblocked 2:3 record=2 cause=12 never-sent\n"
)


REVIEW = (
    b"review exercise=1 stations=2 records=4 others=0 explained=yes orders=1 done=1 answered=0 refused=0 pending=0 "
    b"unheard=0 unanswered=0 lost=0 unknown=0 nobody=0\n"
)
REVIEWED = (
    b"order 0 from=1:1 request=1 create-entity to=2:3:7 at=2:3 sends=1 receipts=1 got=1 said=able answer=2 heard=able "
    b"news=3 took=0 change=2 fate=done\n"
)
REVIEW_IN_JSON = (
    b'{"line":"review","exercise":1,"stations":2,"records":4,"others":0,"explained":true,"orders":1,"done":1,'
    b'"answered":0,"refused":0,"pending":0,"unheard":0,"unanswered":0,"lost":0,"unknown":0,"nobody":0}\n'
    b'{"line":"order","entry":0,"from":"1:1","request":1,"kind":"create-entity","to":"2:3:7","at":"2:3","sends":1,'
    b'"receipts":1,"got":1,"said":"able","answer":2,"heard":"able","news":3,"took":"0","change":2,"fate":"done"}\n'
    b'{"line":"state","entity":"2:3:7","state":"stopped","from":2,"to":null,"since":"0","until":null,"by":"1:1",'
    b'"request":1}\n'
)
REVIEW_IN_PROSE = (
    b"Exercise 1: 2 stations, 4 entries. Some order of events explains them: the logs do not contradict each other.\n"
    b"1 order. By station: 1 done.\n"
    b"0 1:1 told 2:3 to create entity 2:3:7. 2:3 did so at entry 2 and answered able; 1:1 heard it. Answered after 0.\n"
)
COUNTED = (
    b"count 1:1 sent create-entity entries=1\ncount 1:1 received acknowledge entries=1\n"
    b"count 2:3 sent acknowledge entries=1\ncount 2:3 received create-entity entries=1\n"
)
COUNTED_IN_JSON = (
    b'{"line":"count","address":"2:3","did":"sent","kind":"acknowledge","entries":1}\n'
    b'{"line":"count","address":"2:3","did":"received","kind":"create-entity","entries":1}\n'
)


def rows(trials):
    """Words and what is given on standard input, with the usual outcome."""
    script = (TOP / WORKED_SCRIPT).read_bytes()
    recording, certificate, swapped = (trials.file(each) for each in (RECORDING, CERTIFICATE, SWAPPED))
    three = [trials.file(joins.piece(number)) for number in range(3)]
    joined = Outcome(0, b"joined pieces=3 stations=3 records=17 form=closed\n", b"")
    moved, crossed = (trials.file(texts.recording_text(each)) for each in (MOVED, CROSSED))
    return [
        (["pdu", COMMENT], b"", Outcome(0, COMMENT_TOLD, b"")),
        (["pdu", TWELVE_BITS], b"", Outcome(0, TWELVE_TOLD, b"")),
        (["pdus"], f"{COMMENT}\n".encode(), Outcome(0, COMMENT_TOLD, b"")),
        (["pdus"], f"{TWELVE_BITS}\n".encode(), Outcome(0, TWELVE_TOLD, b"")),
        (["check", recording, certificate], b"", Outcome(0, REPORT, b"")),
        (["audit", moved, "found.dsct"], b"", Outcome(0, b"explained steps=4\n", b"")),
        (["audit", crossed, "none.dsct"], b"", Outcome(1, BLOCKED, b"")),
        (["review", recording, "fate=done", "fate=lost"], b"", Outcome(0, REVIEW + REVIEWED, b"")),
        (["review", recording, "entity=2:3:7", "request=1:1/1", "--json"], b"", Outcome(0, REVIEW_IN_JSON, b"")),
        (["review", recording, "fate=done", "--prose"], b"", Outcome(0, REVIEW_IN_PROSE, b"")),
        ([], script, Outcome(0, WORKED_ANSWER, b"")),
        (["world", WORKED_SCRIPT, "row.dsrc"], b"", Outcome(0, WORKED_LINE, b"")),
        (["join", *three, "joined.row.dsrc"], b"", joined),
        (["live", WORKED_SCRIPT, "lived.row.dsrc"], b"", Outcome(0, b"live records=13\n", b"")),
        (["show", recording], b"", pages.answer_to_show(RECORDING)),
        (["log", recording, "--json"], b"", pages.answer_to_log(RECORDING, (), pages.log_json)),
        (["log", recording, "request=1:1/1"], b"", pages.answer_to_log(RECORDING, ["request=1:1/1"])),
        (["count", recording], b"", Outcome(0, COUNTED, b"")),
        (["count", recording, "station=2:3", "--json"], b"", Outcome(0, COUNTED_IN_JSON, b"")),
        (["why", crossed], b"", pages.answer_to_why(texts.recording_text(CROSSED))),
        (["why", recording, swapped], b"", pages.answer_to_why_not(RECORDING, SWAPPED)),
        (["chart", recording, certificate, "row.svg"], b"", answer_to_chart(RECORDING, CERTIFICATE)[0]),
        (["convert", recording, "converted.row.dsrc"], b"", Outcome(0, b"converted records=4\n", b"")),
        (["mend", recording, "mended.row.dsrc"], b"", Outcome(0, b"whole records=4\n", b"")),
        (["export", recording, "row.pcapng"], b"", Outcome(0, b"exported packets=4 told=0\n", b"")),
    ]  # fmt: skip
