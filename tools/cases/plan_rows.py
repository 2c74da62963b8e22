"""Sources for `plan`, one for each sentence of the page, with what the page says of them."""

HEAD = b"exercise 1\nstation 1:1\nstation 2:3\n"
PLAIN_HEAD = b"exercise 1\nstation 1:1 first=1 tries=3 wait=10\nstation 2:3 first=1 tries=3 wait=10\n"
LABEL = b"z" * 64
MOST = 1_048_576
CREATED = b"move 4 create from=1:1 to=2:3:7 request=1 sends=0"
BROUGHT = b"deliver at=2:3 brings=0 kind=create-entity from=1:1:0 to=2:3:7 request=1"
ABLE = b"kind=acknowledge from=2:3:7 to=1:1:0"


def plan_line(moves, datagrams, stations=2):
    return b"plan exercise=1 stations=%d moves=%d datagrams=%d" % (stations, moves, datagrams)


# What stands behind the head, the lines that are printed, and what the plain script has behind its head.
GOOD = [
    (b"", [plan_line(0, 0)], b""),
    (b"create 1:1 2:3:7 as a\nlose a\n", [CREATED + b" label=a", b"lost 0 source=4 kind=create-entity from=1:1:0 to=2:3:7", plan_line(1, 1)], b"create 1:1 2:3:7\n"),
    (b"create 1:1 2:3:7\n# \xc3\xa9\ndeliver 0 2:3 # \xe2\x80\x93\nlose 01\t\n",
     [CREATED, b"move 6 " + BROUGHT + b" answers=1 response=able", b"lost 1 source=6 " + ABLE, plan_line(2, 2)], b"create 1:1 2:3:7\ndeliver 0 2:3\n"),
    (b"at 10\ncreate 1:1 2:3:7 as a\nat 20\ntick 1:1 as t\ndeliver t 2:3\ndeliver answer(t) 1:1\ndeliver t again\n",
     [b"move 5 create from=1:1 to=2:3:7 request=1 sends=0 label=a", b"move 7 tick at=1:1 repeats=1 sends=1 label=t",
      b"move 8 " + BROUGHT.replace(b"brings=0", b"brings=1") + b" answers=2 response=able",
      b"move 9 deliver at=1:1 brings=2 " + ABLE + b" request=1 answers=- response=-",
      b"move 10 " + BROUGHT.replace(b"brings=0", b"brings=1") + b" answers=3 response=able",
      b"lost 0 source=5 kind=create-entity from=1:1:0 to=2:3:7", b"lost 3 source=10 " + ABLE,
      b"copied 1 source=7 at=2:3 times=2", b"warning 5 undelivered datagram=0", plan_line(5, 4)],
     b"at 10\ncreate 1:1 2:3:7\nat 20\ntick 1:1\ndeliver 1 2:3\ndeliver 2 1:1\ndeliver 1 2:3\n"),
    # It is brought to a station that it does not address, which does not answer.
    (b"create 1:1 2:3:7\ndeliver 0 1:1\n",
     [CREATED, b"move 5 " + BROUGHT.replace(b"at=2:3", b"at=1:1") + b" answers=- response=-", b"warning 5 not-addressed at=1:1 to=2:3:7", plan_line(2, 1)],
     b"create 1:1 2:3:7\ndeliver 0 1:1\n"),
    # The last answer, and the last station.
    (b"start 1:1 all as go\ndeliver go 2:3\ndeliver go 1:1\ndeliver go again\nlose answer(go)\ndeliver 1 2:3\ndeliver answer(go) 2:3\n",
     [b"move 4 start from=1:1 to=65535:65535:65535 request=1 sends=0 label=go",
      b"move 5 deliver at=2:3 brings=0 kind=start-resume from=1:1:0 to=65535:65535:65535 request=1 answers=1 response=able",
      b"move 6 deliver at=1:1 brings=0 kind=start-resume from=1:1:0 to=65535:65535:65535 request=1 answers=2 response=able",
      b"move 7 deliver at=1:1 brings=0 kind=start-resume from=1:1:0 to=65535:65535:65535 request=1 answers=3 response=able",
      b"move 9 deliver at=2:3 brings=1 kind=acknowledge from=2:3:0 to=1:1:0 request=1 answers=- response=-",
      b"move 10 deliver at=2:3 brings=3 kind=acknowledge from=1:1:0 to=1:1:0 request=1 answers=- response=-",
      b"lost 2 source=6 kind=acknowledge from=1:1:0 to=1:1:0", b"copied 0 source=4 at=1:1 times=2",
      b"warning 9 not-addressed at=2:3 to=1:1:0", b"warning 10 not-addressed at=2:3 to=1:1:0", plan_line(6, 4)],
     b"start 1:1 65535:65535:65535\ndeliver 0 2:3\ndeliver 0 1:1\ndeliver 0 1:1\ndeliver 1 2:3\ndeliver 3 2:3\n"),
    # All kinds of answers; the lines of part 3 stay in their order.
    (b"action 2:3 4\nfixed 2:3 10 5\nopening 2:3 7 running\naction 2:3 3\n"
     b"do 1:1 2:3:all 4 as a\ndeliver a 2:3\ndo 1:1 2:3:7 5 as b\ndeliver b 2:3\nset 1:1 2:3:0 10 6 as c\ndeliver c 2:3\nquery 1:1 2:3:0 10 11 as d\ndeliver d 2:3\n"
     b"remove 1:1 2:3:8 as e\ndeliver e 2:3\nlose 1\nlose 3\nlose 5\nlose 7\nlose 9\ntell 2:3 9\n",
     [b"move 8 do from=1:1 to=2:3:65535 request=1 sends=0 label=a",
      b"move 9 deliver at=2:3 brings=0 kind=action-request from=1:1:0 to=2:3:65535 request=1 answers=1 response=complete",
      b"move 10 do from=1:1 to=2:3:7 request=2 sends=2 label=b",
      b"move 11 deliver at=2:3 brings=2 kind=action-request from=1:1:0 to=2:3:7 request=2 answers=3 response=rejected",
      b"move 12 set from=1:1 to=2:3:0 request=3 sends=4 label=c",
      b"move 13 deliver at=2:3 brings=4 kind=set-data from=1:1:0 to=2:3:0 request=3 answers=5 response=data",
      b"move 14 query from=1:1 to=2:3:0 request=4 sends=6 label=d",
      b"move 15 deliver at=2:3 brings=6 kind=data-query from=1:1:0 to=2:3:0 request=4 answers=7 response=data",
      b"move 16 remove from=1:1 to=2:3:8 request=5 sends=8 label=e",
      b"move 17 deliver at=2:3 brings=8 kind=remove-entity from=1:1:0 to=2:3:8 request=5 answers=9 response=unable",
      b"move 23 tell entity=2:3:9 state=absent",
      b"lost 1 source=9 kind=action-response from=2:3:0 to=1:1:0", b"lost 3 source=11 kind=action-response from=2:3:7 to=1:1:0",
      b"lost 5 source=13 kind=data from=2:3:0 to=1:1:0", b"lost 7 source=15 kind=data from=2:3:0 to=1:1:0",
      b"lost 9 source=17 kind=acknowledge from=2:3:8 to=1:1:0", plan_line(11, 10)],
     b"action 2:3 4\nfixed 2:3 10 5\nopening 2:3 7 running\naction 2:3 3\n"
     b"do 1:1 2:3:65535 4\ndeliver 0 2:3\ndo 1:1 2:3:7 5\ndeliver 2 2:3\nset 1:1 2:3:0 10 6\ndeliver 4 2:3\nquery 1:1 2:3:0 10 11\ndeliver 6 2:3\n"
     b"remove 1:1 2:3:8\ndeliver 8 2:3\ntell 2:3 9\n"),
    # Nobody is meant, or somebody; a clock goes back, and does not.
    (b"at 5\nat 4\nat 4\nat 6\nstop 1:1 3:65535:all\nlose 0\nstop 1:1 1:65535:7\nlose 1\nstop 1:1 65535:3:7\nlose 2\nstop 1:1 2:0:0\n",
     [b"move 8 stop from=1:1 to=3:65535:65535 request=1 sends=0", b"move 10 stop from=1:1 to=1:65535:7 request=2 sends=1",
      b"move 12 stop from=1:1 to=65535:3:7 request=3 sends=2", b"move 14 stop from=1:1 to=2:0:0 request=4 sends=3",
      b"lost 0 source=8 kind=stop-freeze from=1:1:0 to=3:65535:65535", b"lost 1 source=10 kind=stop-freeze from=1:1:0 to=1:65535:7",
      b"lost 2 source=12 kind=stop-freeze from=1:1:0 to=65535:3:7", b"lost 3 source=14 kind=stop-freeze from=1:1:0 to=2:0:0",
      b"warning 5 back", b"warning 8 nobody to=3:65535:65535", b"warning 14 nobody to=2:0:0", b"warning 14 undelivered datagram=3", plan_line(4, 4)],
     b"at 5\nat 4\nat 4\nat 6\nstop 1:1 3:65535:65535\nstop 1:1 1:65535:7\nstop 1:1 65535:3:7\nstop 1:1 2:0:0\n"),
    # Words of any spelling.
    (b"\t create\t1:01   002:3:007 \tas " + LABEL + b"\t\r\n\r\n \t\r\n#\r\nlose  00000000000000000000000000 #\xf0\x9f\x9a\x80\r\n \t# \xc2\x80\ntick 1:1 as Answer#".replace(b"#", b"\t#") + b"as",
     [CREATED + b" label=" + LABEL, b"move 10 tick at=1:1 repeats=- sends=- label=Answer", b"lost 0 source=4 kind=create-entity from=1:1:0 to=2:3:7", plan_line(2, 1)],
     b"create 1:1 2:3:7\ntick 1:1\n"),
]  # fmt: skip
# Whole sources, the lines that are printed, and the plain script.
WHOLE = [
    (b"exercise 1\nstation 1:1 tries=2\nstation 2:3      # the tank\n  create 1:1 2:3:7 as make\ndeliver make 2:3\ndeliver answer(make) 1:1\nat 10\n"
     b"start 1:1 all as go\ndeliver go 2:3\ndeliver go again\nstop 1:1 2:4:7\ntell 2:3 7\nat 5\ntick 1:1 as t\n",
     [CREATED + b" label=make", b"move 5 " + BROUGHT + b" answers=1 response=able",
      b"move 6 deliver at=1:1 brings=1 " + ABLE + b" request=1 answers=- response=-",
      b"move 8 start from=1:1 to=65535:65535:65535 request=2 sends=2 label=go",
      b"move 9 deliver at=2:3 brings=2 kind=start-resume from=1:1:0 to=65535:65535:65535 request=2 answers=3 response=able",
      b"move 10 deliver at=2:3 brings=2 kind=start-resume from=1:1:0 to=65535:65535:65535 request=2 answers=4 response=able",
      b"move 11 stop from=1:1 to=2:4:7 request=3 sends=5", b"move 12 tell entity=2:3:7 state=running", b"move 14 tick at=1:1 repeats=- sends=- label=t",
      b"lost 3 source=9 kind=acknowledge from=2:3:0 to=1:1:0", b"lost 4 source=10 kind=acknowledge from=2:3:0 to=1:1:0",
      b"lost 5 source=11 kind=stop-freeze from=1:1:0 to=2:4:7", b"copied 2 source=8 at=2:3 times=2",
      b"warning 11 nobody to=2:4:7", b"warning 11 undelivered datagram=5", b"warning 13 back", plan_line(9, 6)],
     b"exercise 1\nstation 1:1 first=1 tries=2 wait=10\nstation 2:3 first=1 tries=3 wait=10\ncreate 1:1 2:3:7\ndeliver 0 2:3\ndeliver 1 1:1\nat 10\n"
     b"start 1:1 65535:65535:65535\ndeliver 2 2:3\ndeliver 2 2:3\nstop 1:1 2:4:7\ntell 2:3 7\nat 5\ntick 1:1\n"),
    (b"\xef\xbb\xbf# \xc3\xa9\nexercise 001\r\nstation 1:1 wait=007 first=0\r\n  station 1:02 tries=04294967295", [b"plan exercise=1 stations=2 moves=0 datagrams=0"],
     b"exercise 1\nstation 1:1 first=0 tries=3 wait=7\nstation 1:2 first=1 tries=4294967295 wait=10\n"),
    (b"\xef\xbb\xbfexercise 1\nstation 1:1 first=4294967295\nstart 1:1 65535:65535:0\nlose 0", [
        b"move 3 start from=1:1 to=65535:65535:0 request=4294967295 sends=0", b"lost 0 source=3 kind=start-resume from=1:1:0 to=65535:65535:0", plan_line(1, 1, 1)],
     b"exercise 1\nstation 1:1 first=4294967295 tries=3 wait=10\nstart 1:1 65535:65535:0\n"),
    (HEAD + b"#" * (MOST - len(HEAD)), [plan_line(0, 0)], PLAIN_HEAD),
]  # fmt: skip
# What stands behind the head, and the line that cannot be read: of all lines the first.
UNREAD = [
    *((tail, 4) for tail in [
        b"fly\n", b"create 1:1\n", b"create 1:1 2:3:7 as\n", b"create 1:1 2:3:7 as 1a\n", b"create 1:1 2:3:7 as answer\n", b"create 1:1 2:3:7 as again\n",
        b"create 1:1 2:3:7 as as\n", b"create 1:1 2:3:7 as all\n", b"create 1:1 2:3:7 as z" + LABEL + b"\n", b"create 1:1 2:3:7 as a.b\n", b"create 1:1 2:3:7 as a as b\n",
        b"create 1:1 2:3:7 as a b\n", b"create 1:1 as a\n", b"query 1:1 2:3:0 as a\n", b"tell 2:3 7 as a\n", b"at 5 as a\n", b"fixed 2:3 1 1 as a\n",
        b"deliver a 2:3\ncreate 1:1 2:3:7 as a\n", b"lose a\ncreate 1:1 2:3:7 as a\n", b"lose answer(a)\n", b"deliver\n", b"deliver 0\n", b"deliver again\n",
        b"deliver 0 again 2:3\n", b"deliver 0 2:3 again\n", b"lose\n", b"lose 0 1\n", b"lose 0 2:3\n", b"lose -1\n", b"lose 4294967296\n", b"lose answer(1)\n",
        b"deliver answer() 2:3\n", b"deliver 0 9:9\n", b"create 9:9 2:3:7\n", b"station 1:1\n", b"station 2:4 first=1 first=2\n", b"station 2:4 tries=0\n",
        b"station 2:4 wait=18446744073709551616\n", b"station 2:4 fist=1\n", b"station 2:4 first=1 tries=2 wait=3 wait=3\n", b"exercise 1\n",
        b"create 1:1 ALL\n", b"create 1:1 1:all\n", b"create 1:1 all:1:1\n", b"create 1:1 1:1:al\n", b"create all 2:3:7\n", b"create 1:1 65536:1:all\n",
        b"tick 1:1 #\xff\n", b"#\xc3\n", b"# \xed\xa0\x80\n", b"tick 1:1 \xc3\xa9\n", b"tick 1:1#\n", b"tick\x0b1:1\n", b"tick\xc2\xa01:1\n", b"tick 1:1\x00\n",
        b"tick 1:1\r \n", b"tick\r1:1\n", b"tick 1:1\r\r\n", b"\xef\xbb\xbftick 1:1\n", b"tell 1:1 65536\n", b"deliver " + b"9" * 5000 + b" 2:3\n",
        b"answer(a)\n", b"as a\n", b"Tick 1:1\n", b"create 1:1 2:3:7 AS a\n", b"deliver 0 Again\n", b"deliver Answer(a) 2:3\n",
    ]),
    (b"create 1:1 2:3:7 as a\nstart 1:1 all as a\n", 5), (b"create 1:1 2:3:7 as a\ndeliver A 2:3\n", 5), (b"create 1:1 2:3:7 as a\ndeliver answer (a) 2:3\n", 5),
    (b"tick 1:1 as t\ntick 1:1 as t\n", 5), (b"lose 0\nopening 2:3 7 stopped\n", 5), (b"deliver 0 again\nfixed 2:3 1 1\n", 5), (b"opening 2:3 7 stopped\nstation 3:3\n", 5),
    (b"opening 2:3 7 stopped\nopening 2:3 7 running\n", 5), (b"deliver 9 2:3\ntell 1:1 0\ndeliver 0 again\nfly\n", 7), (b"# \r\xff\r\n", 4),
]  # fmt: skip
# Whole sources, and the line that cannot be read.
UNREAD_WHOLE = [
    (b"", 1), (b"\n", 2), (b"\xef\xbb\xbf", 1), (b"\r", 2), (b"exercise 1", 2), (b"exercise 1\n# no station\n\n", 4), (b"station 1:1\n", 1), (b"lose 0\n", 1),
    (b"at 1\n", 1), (b"exercise 1\nlose 0\nstation 1:1\n", 3), (b"exercise 1\nlose 0\n", 3), (b"\xef\xbb\xbf\xef\xbb\xbfexercise 1\nstation 1:1\n", 1),
    (b"exercise 1\nstation 2:3\nstation 1:1\n", 3), (b"exercise 256\nstation 1:1\n", 1), (HEAD + b"#" * (MOST + 1 - len(HEAD)), 0), (b"\xff" * (MOST + 1), 0),
    (b"exercise 1\n" + b"".join(b"station 1:%d\n" % number for number in range(1, 258)), 258),
]  # fmt: skip
# What stands behind the head, and the line that names no datagram, or one that was never brought: the first fault of the course.
UNNAMED = [
    (b"tick 1:1 as t\ndeliver t 2:3\n", 5), (b"tick 1:1 as t\nlose t\n", 5), (b"tick 1:1 as t\ndeliver answer(t) 2:3\n", 5), (b"lose 0\n", 4), (b"lose 0\ncreate 1:1 2:3:7\n", 4),
    (b"deliver 0 again\n", 4), (b"create 1:1 2:3:7\ndeliver 0 again\n", 5), (b"create 1:1 2:3:7 as a\ndeliver answer(a) 1:1\n", 5),
    (b"create 1:1 2:3:7 as a\nlose answer(a)\ndeliver a 2:3\n", 5), (b"create 1:1 2:3:7 as a\ndeliver a 1:1\ndeliver answer(a) 1:1\n", 6),
    (b"create 1:1 2:3:7 as a\ndeliver a 2:3\ndeliver answer(a) again\n", 6), (b"create 1:1 2:3:7 as a\ndeliver a 2:3\nlose 2\n", 6),
    (b"create 1:1 2:3:7 as a\nat 10\ntick 1:1 as t\ndeliver a 2:3\ndeliver answer(t) 1:1\n", 8), (b"deliver 7 again\ndeliver 9 2:3\n", 4),
]  # fmt: skip
# What stands behind the head, the lines so far, and what is told of the move that the world refuses.
REFUSED = [
    (b"deliver 0 2:3\nlose 7\n", [], b"no-such-send at move 0"), (b"create 1:1 2:3:7\ndeliver 1 2:3\ndeliver 1 again\n", [CREATED], b"no-such-send at move 1"),
    (b"create 1:1 2:3:7\nat 9\nat 3\nlose 0\ntell 1:1 0\n", [CREATED], b"no-such-entity at move 1"), (b"tell 2:3 65534\n", [], b"no-such-entity at move 0"),
    (b"query 1:1 all" + b" 1" * 2039 + b"\n", [], b"too-long at move 0"), (b"deliver 4294967295 2:3\n", [], b"no-such-send at move 0"),
    (b"create 1:1 2:3:7\ndeliver 0 2:3\ndeliver 2 1:1\n", [CREATED, b"move 5 " + BROUGHT + b" answers=1 response=able"], b"no-such-send at move 2"),
]  # fmt: skip
