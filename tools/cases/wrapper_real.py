"""What `./siman` of a fresh clone answers with the real toolchain: words, standard input, standard output or how it
begins, what stands in standard error, and the status, as README.md and docs/staff/READING.md say."""

LINE = "create-entity version=7 exercise=1 stamp=0 status=0 from=1:1:0 to=2:3:7 request=1\n"
HEX = "07010B0500000000001C000000010001000000020003000700000001"
TRIAL = """world records=16 sent=8
explained steps=16
yes records=16 others=0
answer 3 request 2
answer 7 request 6
answer 9 request 8
answer 11 request 6
known 13 change 3
known 14 change 9
known 15 change 7
entity 2:3:7 running
"""
CHECKED = """yes records=9 others=0
answer 2 request 1
answer 6 request 5
known 3 change 2
known 7 change 6
entity 2:3:7 running
"""
REVIEWED = (
    "review exercise=1 stations=3 records=30 others=0 explained=yes orders=7 done=4 answered=0 refused=1 pending=0 "
    "unheard=1 unanswered=1 lost=1 unknown=0 nobody=0\n"
    "order 29 from=1:1 request=7 remove-entity to=2:4:8 at=2:4 sends=1 receipts=0 got=- said=- answer=- heard=- news=- "
    "took=- change=- fate=lost\n"
)
LOGGED = (
    "entry 11 2:4 received clock=922 start-resume version=7 time=00:00.000000/relative status=0 from=1:1:0 "
    "to=65535:65535:65535 real=0/0 sim=0/0 request=3 source=9\n"
    "entry 13 2:4 sent clock=922 acknowledge version=7 time=00:00.000000/relative status=0 from=2:4:0 to=1:1:0 "
    "flag=3(start-resume) response=1(able) request=3 receipts=0 answers=11\n"
    "change 13 entity=2:4:65535 to=running by=1:1 request=3\n"
)
COUNTED = (
    "count 2:4 sent acknowledge entries=2\n"
    "count 2:4 received create-entity entries=1\n"
    "count 2:4 received start-resume entries=1\n"
    "count 2:4 received data-query entries=1\n"
    "count 2:4 told entries=1\n"
)
NO = "no step=3 cause=13 wrong-state\n"
WHY = (
    NO + "rule 13 a station tells the state that its entity has\n"
    "clash 2 entity=2:3:7 state=stopped change=1\n"
    "fault recording\n"
)
REAL = (
    (["pdu", HEX], None, LINE, "", 0),
    (["pdu", "07"], None, "refused ", "", 1),
    (["pdus"], f"{HEX}\n\nno\n{HEX}\n", LINE * 2, "hex: not byte pairs at line 3\n", 2),
    (["show", "examples/created_and_started.dsrc"], None, "exercise=1 stations=2 records=9\nstation 0 1:1\n", "", 0),
    (["check", "examples/created_and_started.dsrc", "examples/created_and_started.dsct"], None, CHECKED, "", 0),
    (["check", "examples/logs_joined_wrong_state.dsrc", "examples/logs_joined.dsct"], None, NO, "", 1),
    (["review", "examples/losses.dsrc", "fate=lost"], None, REVIEWED, "", 0),
    (["review", "examples/missing.dsrc", "--json"], None, "", "file: examples/missing.dsrc: no such file\n", 2),
    (["log", "examples/losses.dsrc", "request=1:1/3", "station=2:4"], None, LOGGED, "", 0),
    (["count", "examples/losses.dsrc", "station=2:4"], None, COUNTED, "", 0),
    (["why", "examples/logs_joined_wrong_state.dsrc", "examples/logs_joined.dsct"], None, WHY, "", 1),
    (["why", "examples/missing.dsrc", "--json"], None, "", "file: examples/missing.dsrc: no such file\n", 2),
    (["show", "examples/missing.dsrc"], None, "", "file: examples/missing.dsrc: no such file\n", 2),
    ([], "examples/lost_copied_swapped.script", TRIAL, "", 0),
    (["--help"], None, "Shows Simulation Management PDUs", "", 0),
    (["wrong"], None, "", "error: ", 2),
)
