"""The examples that the pages give, with the answers that stand there."""
import shutil
import subprocess
from pathlib import Path

TOP = Path(__file__).resolve().parent.parent.parent
README_DATAGRAM = b"07010B0500000000001C000000010001000000020003000700000001"
README_ANSWER = b"create-entity version=7 exercise=1 stamp=0 status=0 from=1:1:0 to=2:3:7 request=1\n"
TEXTS_REPORT = (
    b"yes records=9 others=0\nanswer 2 request 1\nanswer 6 request 5\nknown 3 change 2\nknown 7 change 6\n"
    b"entity 2:3:7 running\n"
)
# What check says of logs_joined.dsrc and of logs_joined_wrong_state.dsrc, both with logs_joined.dsct.
JOINED_REPORT = (
    b"yes records=7 others=0\nanswer 1 request 0\nanswer 4 request 0\nknown 6 change 1\nentity 2:3:7 stopped\n"
)
JOINED_NO = b"no step=3 cause=13 wrong-state\n"
# What check says of open.dsrc with open.dsct.
OPEN_REPORT = b"yes records=3 others=0\nanswer 1 request 0\nentity 2:3:7 stopped\n"
# What review says of losses.dsrc, and the order line that it has of open.dsrc.
LOSSES_REVIEW = b"""\
review exercise=1 stations=3 records=30 others=0 explained=yes orders=7 done=4 answered=0 refused=1 pending=0 unheard=1 unanswered=1 lost=1 unknown=0 nobody=0
station 1:1 records=14 made=7 done=0 answered=0 refused=0 pending=0 unheard=0 unanswered=0 lost=0 unknown=0 entities=0 running=0
station 2:3 records=10 made=0 done=3 answered=0 refused=1 pending=0 unheard=0 unanswered=0 lost=0 unknown=0 entities=1 running=0
station 2:4 records=6 made=0 done=1 answered=0 refused=0 pending=0 unheard=1 unanswered=1 lost=1 unknown=0 entities=2 running=2
order 0 from=1:1 request=1 create-entity to=2:3:7 at=2:3 sends=1 receipts=1 got=1 said=able answer=2 heard=able news=3 took=2 change=2 fate=done
order 4 from=1:1 request=2 create-entity to=2:4:9 at=2:4 sends=2 receipts=1 got=6 said=able answer=7 heard=able news=8 took=12 change=7 fate=done
order 9 from=1:1 request=3 start-resume to=65535:65535:65535 at=2:3 sends=1 receipts=1 got=10 said=able answer=12 heard=able news=14 took=3 change=12 fate=done
order 9 from=1:1 request=3 start-resume to=65535:65535:65535 at=2:4 sends=1 receipts=1 got=11 said=able answer=13 heard=- news=- took=- change=13 fate=unheard
order 16 from=1:1 request=4 stop-freeze to=2:3:5 at=2:3 sends=1 receipts=1 got=17 said=unable answer=18 heard=unable news=19 took=2 change=- fate=refused
order 20 from=1:1 request=5 data-query to=2:4:0 at=2:4 sends=1 receipts=1 got=21 said=- answer=- heard=- news=- took=- change=- fate=unanswered
order 24 from=1:1 request=6 stop-freeze to=2:3:7 at=2:3 sends=1 receipts=1 got=25 said=able answer=26 heard=able news=27 took=2 change=26 fate=done
order 29 from=1:1 request=7 remove-entity to=2:4:8 at=2:4 sends=1 receipts=0 got=- said=- answer=- heard=- news=- took=- change=- fate=lost
state 2:3:7 stopped from=2 to=12 since=501 until=521 by=1:1 request=1
state 2:3:7 running from=12 to=26 since=521 until=551 by=1:1 request=3
state 2:3:7 stopped from=26 to=- since=551 until=- by=1:1 request=6
state 2:4:8 running from=- to=- since=- until=- by=- request=-
state 2:4:9 stopped from=7 to=13 since=914 until=922 by=1:1 request=2
state 2:4:9 running from=13 to=- since=922 until=- by=1:1 request=3
"""
# What log says of it.
LOSSES_LOG = b"""\
entry 0 1:1 sent clock=100 create-entity version=7 time=00:00.000000/relative status=0 from=1:1:0 to=2:3:7 request=1 receipts=1 order=0
entry 1 2:3 received clock=501 create-entity version=7 time=00:00.000000/relative status=0 from=1:1:0 to=2:3:7 request=1 source=0
entry 2 2:3 sent clock=501 acknowledge version=7 time=00:00.000000/relative status=0 from=2:3:7 to=1:1:0 flag=1(create-entity) response=1(able) request=1 receipts=1 answers=1
change 2 entity=2:3:7 to=stopped by=1:1 request=1
entry 3 1:1 received clock=102 acknowledge version=7 time=00:00.000000/relative status=0 from=2:3:7 to=1:1:0 flag=1(create-entity) response=1(able) request=1 source=2
entry 4 1:1 sent clock=103 create-entity version=7 time=00:00.000000/relative status=0 from=1:1:0 to=2:4:9 request=2 receipts=0 order=4
entry 5 1:1 sent clock=113 create-entity version=7 time=00:00.000016/relative status=0 from=1:1:0 to=2:4:9 request=2 receipts=1 order=4
entry 6 2:4 received clock=914 create-entity version=7 time=00:00.000016/relative status=0 from=1:1:0 to=2:4:9 request=2 source=5
entry 7 2:4 sent clock=914 acknowledge version=7 time=00:00.000000/relative status=0 from=2:4:9 to=1:1:0 flag=1(create-entity) response=1(able) request=2 receipts=1 answers=6
change 7 entity=2:4:9 to=stopped by=1:1 request=2
entry 8 1:1 received clock=115 acknowledge version=7 time=00:00.000000/relative status=0 from=2:4:9 to=1:1:0 flag=1(create-entity) response=1(able) request=2 source=7
entry 9 1:1 sent clock=120 start-resume version=7 time=00:00.000000/relative status=0 from=1:1:0 to=65535:65535:65535 real=0/0 sim=0/0 request=3 receipts=2 order=9
entry 10 2:3 received clock=521 start-resume version=7 time=00:00.000000/relative status=0 from=1:1:0 to=65535:65535:65535 real=0/0 sim=0/0 request=3 source=9
entry 11 2:4 received clock=922 start-resume version=7 time=00:00.000000/relative status=0 from=1:1:0 to=65535:65535:65535 real=0/0 sim=0/0 request=3 source=9
entry 12 2:3 sent clock=521 acknowledge version=7 time=00:00.000000/relative status=0 from=2:3:0 to=1:1:0 flag=3(start-resume) response=1(able) request=3 receipts=1 answers=10
change 12 entity=2:3:65535 to=running by=1:1 request=3
entry 13 2:4 sent clock=922 acknowledge version=7 time=00:00.000000/relative status=0 from=2:4:0 to=1:1:0 flag=3(start-resume) response=1(able) request=3 receipts=0 answers=11
change 13 entity=2:4:65535 to=running by=1:1 request=3
entry 14 1:1 received clock=123 acknowledge version=7 time=00:00.000000/relative status=0 from=2:3:0 to=1:1:0 flag=3(start-resume) response=1(able) request=3 source=12
entry 15 2:4 told entity=2:4:9 state=running
entry 16 1:1 sent clock=130 stop-freeze version=7 time=00:00.000000/relative status=0 from=1:1:0 to=2:3:5 real=0/0 reason=0(other) behaviour=0 request=4 receipts=1 order=16
entry 17 2:3 received clock=531 stop-freeze version=7 time=00:00.000000/relative status=0 from=1:1:0 to=2:3:5 real=0/0 reason=0(other) behaviour=0 request=4 source=16
entry 18 2:3 sent clock=531 acknowledge version=7 time=00:00.000000/relative status=0 from=2:3:5 to=1:1:0 flag=4(stop-freeze) response=2(unable) request=4 receipts=1 answers=17
entry 19 1:1 received clock=132 acknowledge version=7 time=00:00.000000/relative status=0 from=2:3:5 to=1:1:0 flag=4(stop-freeze) response=2(unable) request=4 source=18
entry 20 1:1 sent clock=140 data-query version=7 time=00:00.000000/relative status=0 from=1:1:0 to=2:4:0 request=5 interval=0 receipts=1 order=20
fixed 20 10
entry 21 2:4 received clock=941 data-query version=7 time=00:00.000000/relative status=0 from=1:1:0 to=2:4:0 request=5 interval=0 source=20
fixed 21 10
entry 22 2:3 sent clock=542 event-report version=7 time=00:00.000000/relative status=0 from=2:3:7 to=65535:65535:65535 event=2 receipts=1
variable 22 5 40 48454c4c4f text=HELLO
entry 23 1:1 received clock=143 event-report version=7 time=00:00.000000/relative status=0 from=2:3:7 to=65535:65535:65535 event=2 source=22
variable 23 5 40 48454c4c4f text=HELLO
entry 24 1:1 sent clock=150 stop-freeze version=7 time=00:00.000000/relative status=0 from=1:1:0 to=2:3:7 real=0/0 reason=0(other) behaviour=0 request=6 receipts=1 order=24
entry 25 2:3 received clock=551 stop-freeze version=7 time=00:00.000000/relative status=0 from=1:1:0 to=2:3:7 real=0/0 reason=0(other) behaviour=0 request=6 source=24
entry 26 2:3 sent clock=551 acknowledge version=7 time=00:00.000000/relative status=0 from=2:3:7 to=1:1:0 flag=4(stop-freeze) response=1(able) request=6 receipts=1 answers=25
change 26 entity=2:3:7 to=stopped by=1:1 request=6
entry 27 1:1 received clock=152 acknowledge version=7 time=00:00.000000/relative status=0 from=2:3:7 to=1:1:0 flag=4(stop-freeze) response=1(able) request=6 source=26
entry 28 2:3 told entity=2:3:7 state=stopped
entry 29 1:1 sent clock=160 remove-entity version=7 time=00:00.000000/relative status=0 from=1:1:0 to=2:4:8 request=7 receipts=0 order=29
"""
# What count says of it.
LOSSES_COUNT = b"""\
count 1:1 sent create-entity entries=3
count 1:1 sent remove-entity entries=1
count 1:1 sent start-resume entries=1
count 1:1 sent stop-freeze entries=2
count 1:1 sent data-query entries=1
count 1:1 received acknowledge entries=5
count 1:1 received event-report entries=1
count 2:3 sent acknowledge entries=4
count 2:3 sent event-report entries=1
count 2:3 received create-entity entries=1
count 2:3 received start-resume entries=1
count 2:3 received stop-freeze entries=2
count 2:3 told entries=1
count 2:4 sent acknowledge entries=2
count 2:4 received create-entity entries=1
count 2:4 received start-resume entries=1
count 2:4 received data-query entries=1
count 2:4 told entries=1
"""
# What why says of it without its entry 7, and with the answer of entry 14 unable; the latter with its certificate too.
WHY_MISSING = b"""\
blocked stations=3
blocked 1:1 record=7 cause=12 never-sent
blocked 2:3 record=9 cause=12 never-sent
blocked 2:4 record=10 cause=12 never-sent
rule 12 a datagram that is received was sent before
clash 7 from=2:4 sent=- near=- differs=-
waits 9 at=2:3 sent=8 on=1:1 next=7
waits 10 at=2:4 sent=8 on=1:1 next=7
also 14 at=2:4 cause=13 wrong-state
missing 7 at=2:4 after=6
repair sends=1 enough=yes
entry 6 2:4 received clock=914 create-entity version=7 time=00:00.000016/relative status=0 from=1:1:0 to=2:4:9 request=2 source=5
entry 7 1:1 received clock=115 acknowledge version=7 time=00:00.000000/relative status=0 from=2:4:9 to=1:1:0 flag=1(create-entity) response=1(able) request=2 source=-
entry 8 1:1 sent clock=120 start-resume version=7 time=00:00.000000/relative status=0 from=1:1:0 to=65535:65535:65535 real=0/0 sim=0/0 request=3 receipts=2 order=8
entry 9 2:3 received clock=521 start-resume version=7 time=00:00.000000/relative status=0 from=1:1:0 to=65535:65535:65535 real=0/0 sim=0/0 request=3 source=8
entry 10 2:4 received clock=922 start-resume version=7 time=00:00.000000/relative status=0 from=1:1:0 to=65535:65535:65535 real=0/0 sim=0/0 request=3 source=8
entry 14 2:4 told entity=2:4:9 state=running
"""
WHY_CHANGED = b"""\
blocked stations=3
blocked 1:1 record=14 cause=12 never-sent
blocked 2:3 record=17 cause=12 never-sent
blocked 2:4 record=21 cause=12 never-sent
rule 12 a datagram that is received was sent before
clash 14 from=2:3 sent=- near=12 differs=response
waits 17 at=2:3 sent=16 on=1:1 next=14
waits 21 at=2:4 sent=20 on=1:1 next=14
missing 14 at=2:3 after=10
repair sends=1 enough=no
entry 10 2:3 received clock=521 start-resume version=7 time=00:00.000000/relative status=0 from=1:1:0 to=65535:65535:65535 real=0/0 sim=0/0 request=3 source=9
entry 12 2:3 sent clock=521 acknowledge version=7 time=00:00.000000/relative status=0 from=2:3:0 to=1:1:0 flag=3(start-resume) response=1(able) request=3 receipts=0 answers=10
entry 14 1:1 received clock=123 acknowledge version=7 time=00:00.000000/relative status=0 from=2:3:0 to=1:1:0 flag=3(start-resume) response=2(unable) request=3 source=-
entry 16 1:1 sent clock=130 stop-freeze version=7 time=00:00.000000/relative status=0 from=1:1:0 to=2:3:5 real=0/0 reason=0(other) behaviour=0 request=4 receipts=1 order=16
entry 17 2:3 received clock=531 stop-freeze version=7 time=00:00.000000/relative status=0 from=1:1:0 to=2:3:5 real=0/0 reason=0(other) behaviour=0 request=4 source=16
entry 20 1:1 sent clock=140 data-query version=7 time=00:00.000000/relative status=0 from=1:1:0 to=2:4:0 request=5 interval=0 receipts=1 order=20
entry 21 2:4 received clock=941 data-query version=7 time=00:00.000000/relative status=0 from=1:1:0 to=2:4:0 request=5 interval=0 source=20
"""
WHY_NOT_CHANGED = b"""\
no step=15 cause=12 never-sent
rule 12 a datagram that is received was sent before
clash 14 from=2:3 sent=- near=12 differs=response step=-
fault recording
entry 12 2:3 sent clock=521 acknowledge version=7 time=00:00.000000/relative status=0 from=2:3:0 to=1:1:0 flag=3(start-resume) response=1(able) request=3 receipts=0 answers=10
entry 14 1:1 received clock=123 acknowledge version=7 time=00:00.000000/relative status=0 from=2:3:0 to=1:1:0 flag=3(start-resume) response=2(unable) request=3 source=-
"""
OPEN_ORDER = (
    b"order 0 from=9:9 request=1 create-entity to=2:3:7 at=2:3 sends=- receipts=1 got=0 said=able answer=1 "
    b"heard=- news=- took=- change=1 fate=unknown\n"
)
WORKED_SCRIPT = "examples/lost_copied_swapped.script"
WORKED_LINE = b"world records=16 sent=8\n"
WORKED_ANSWER = (
    WORKED_LINE + b"explained steps=16\nyes records=16 others=0\n"
    b"answer 3 request 2\nanswer 7 request 6\nanswer 9 request 8\nanswer 11 request 6\n"
    b"known 13 change 3\nknown 14 change 9\nknown 15 change 7\nentity 2:3:7 running\n"
)
# A source, what plan says of it, and the script that it writes.
PLAN_SOURCE, PLAN_SCRIPT = "examples/convoy.plan", "examples/convoy.script"
PLAN_LINES = b"""\
move 4 create from=1:1 to=2:3:7 request=1 sends=0 label=make
move 5 deliver at=2:3 brings=0 kind=create-entity from=1:1:0 to=2:3:7 request=1 answers=1 response=able
move 6 deliver at=1:1 brings=1 kind=acknowledge from=2:3:7 to=1:1:0 request=1 answers=- response=-
move 8 start from=1:1 to=65535:65535:65535 request=2 sends=2 label=go
move 9 deliver at=2:3 brings=2 kind=start-resume from=1:1:0 to=65535:65535:65535 request=2 answers=3 response=able
move 10 deliver at=2:3 brings=2 kind=start-resume from=1:1:0 to=65535:65535:65535 request=2 answers=4 response=able
move 11 stop from=1:1 to=2:4:7 request=3 sends=5
move 12 tell entity=2:3:7 state=running
move 14 tick at=1:1 repeats=- sends=- label=t
lost 3 source=9 kind=acknowledge from=2:3:0 to=1:1:0
lost 4 source=10 kind=acknowledge from=2:3:0 to=1:1:0
lost 5 source=11 kind=stop-freeze from=1:1:0 to=2:4:7
copied 2 source=8 at=2:3 times=2
warning 11 nobody to=2:4:7
warning 11 undelivered datagram=5
warning 13 back
plan exercise=1 stations=2 moves=9 datagrams=6
"""
FORMATS_RECORDING = bytes.fromhex(
    "4453524330303031 01 0001 0002 0003 0001 0007 01 02 0000 0000000000000005 0002 ABCD"
    "01 0000 0000000000000100 0001 EF 03 0000 0007 02 00 00000003"
)
FORMATS_CLOSED = bytes.fromhex("4453524330303032 01 00 0001 0002 0003 0001 0007 01 00 00000000")
FORMATS_SHOWN = (
    b"exercise=1 stations=1 records=3\nstation 0 2:3\nopening 0 7 stopped\n0 received 0 stamp=5 other bytes=2\n"
    b"1 sent 0 stamp=256 other bytes=1\n2 told 0 7 running\n"
)
FORMATS_CERTIFICATE = bytes.fromhex(
    "4453435430303031 00000004 00000002FFFFFFFF 0000000000000002 0000000100000000 0000000300000001"
)
EMPTY_CERTIFICATE = bytes.fromhex("445343543030303100000000")


def made_examples(folder):
    """The files of examples/, made in a folder from copies of their hex texts."""
    made = folder / "examples"
    shutil.copytree(TOP / "examples", made, ignore=shutil.ignore_patterns("*.dsrc", "*.dsct"))
    subprocess.run(["sh", str(made / "make")], check=True)
    names = ["created_and_started.dsrc", "created_and_started.dsct", "told_a_wrong_state.dsrc"]
    return [f"examples/{name}" for name in names]
