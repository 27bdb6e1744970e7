"""Texts that the program refuses, each with the code and the line of its refusal, and some that it takes."""

FRONT = "topology 1\nnodes n0 n1\n"
LINE_OF_3 = "topology 1\nnodes n0 n1 n2\ngroup 1 n0>n1\ngroup 1 n1>n0\ngroup 1 n1>n2\ngroup 1 n2>n1\n"
GIVEN = "topology 2\nnodes a b c\ngroup 1 a>b\ngroup 1 b>c\n"

# Topologies: the text, the code and the line.
TOPOLOGIES = [
    ("", 1, 1),
    ("topology 1", 1, 1),
    ("topology 2", 1, 1),
    ("topology 3\nnodes n0\n", 1, 1),
    ("topology 1 \nnodes n0\n", 1, 1),
    ("topology 1\n", 11, 2),
    ("topology 1\nnodes\n", 11, 2),
    ("topology 1\nnodes", 2, 2),
    ("topology 1\nnodes n0 \n", 2, 2),
    ("topology 1\nnodes  n0\n", 2, 2),
    ("topology 1\nnodesn0\n", 2, 2),
    ("topology 1\nnodes N0\n", 3, 2),
    ("topology 1\nnodes abcdefghijklmnopq\n", 3, 2),
    ("topology 1\nnodes n0 n0\n", 4, 2),
    ("topology 1\nnodes a b c d e f g h i j k l m n o p q\n", 9, 2),
    (FRONT + "group 1 n0>n1", 2, 3),
    (FRONT + "group 1\n", 2, 3),
    (FRONT + "group 1 n0>n1 \n", 2, 3),
    (FRONT + "\n", 2, 3),
    (FRONT + "group 1 n0n1\n", 2, 3),
    (FRONT + "group 1 n0>n1>n0\n", 2, 3),
    (FRONT + "group 1 n0>n2\n", 5, 3),
    (FRONT + "group 1 n0>n0\n", 6, 3),
    (FRONT + "group 1 n0>n1 n0>n1\n", 7, 3),
    (FRONT + "group 0 n0>n1\n", 8, 3),
    (FRONT + "group 17 n0>n1\n", 8, 3),
    (FRONT + "group 01 n0>n1\n", 8, 3),
    (FRONT + "group 1 n0>n1\n" * 257, 10, 259),
    # two faults on one line, and on two
    ("topology 1\nnodes N0 N0\n", 3, 2),
    ("topology 1\nnodes n0 N1 n0\n", 3, 2),
    ("topology 1\nnodes a b c d e f g h i j k l m n o p P\n", 9, 2),
    (FRONT + "group 17 n2>n2\n", 8, 3),
    (FRONT + "group 1 n2>n2\n", 5, 3),
    (FRONT + "group 1 n0>n1 n0>n0 n0>n1\n", 6, 3),
    (FRONT + "group 1 n0>n1 n0>n1 n9\n", 7, 3),
    (FRONT + "group 1 n0>n1\ngroup 1 n0>n2\ngroup 0 n0>n1\n", 5, 4),
    ("topology 1\nnodes n0 n0\ngroup 0 n0>n1\n", 4, 2),
    # version 1 has no pattern, and version 2 has one
    (FRONT + "custom 1\nbefore 0\nafter 0\n", 2, 3),
    (GIVEN, 2, 5),
    (GIVEN + "custom 1", 2, 5),
    (GIVEN + "custom\n", 2, 5),
    (GIVEN + "customs 1\n", 2, 5),
    (GIVEN + "custom 1 \n", 2, 5),
    (GIVEN + "custom  1\n", 2, 5),
    (GIVEN + "nodes 1\n", 2, 5),
    (GIVEN + "custom \n", 13, 5),
    (GIVEN + "custom 0\n", 13, 5),
    (GIVEN + "custom 17\n", 13, 5),
    (GIVEN + "custom 01\n", 13, 5),
    (GIVEN + "group 1 a>b\ncustom 17\n", 13, 6),
    (GIVEN + "custom 1\nbefore 0 a\n", 2, 7),
    (GIVEN + "custom 1\nbefore 0 a\nafter 0 c", 2, 7),
    (GIVEN + "custom 1\nafter 0 a\nbefore 0 c\n", 2, 6),
    (GIVEN + "custom 1\nbefore 1 a\nafter 0 c\n", 2, 6),
    (GIVEN + "custom 1\nbefore 00 a\nafter 0 c\n", 2, 6),
    (GIVEN + "custom 1\nbefore 0 a \nafter 0 c\n", 2, 6),
    (GIVEN + "custom 1\nbefore 0 d\nafter 0 c\n", 5, 6),
    (GIVEN + "custom 1\nbefore 0 c a\nafter 0 c\n", 14, 6),
    (GIVEN + "custom 1\nbefore 0 a\nafter 0 c c\n", 14, 7),
    (GIVEN + "custom 1\nbefore 0 c a d\nafter 0 c\n", 14, 6),
    (GIVEN + "custom 2\nbefore 0 a\nafter 0 c\nbefore 1 a\nafter 2 a\n", 2, 9),
    (GIVEN + "custom 1\nbefore 0 a\nafter 0 c\nbefore 1\n", 2, 8),
]

BROADCAST = (
    "sccl 1\nsynth collective=broadcast k=0 steps=1 chunks=1 conflicts=1000 root=n0\ntopology 1\nnodes n0 n1\ngroup 1 n0>n1\n"
    "group 1 n1>n0\nfrontier whole\npoint 1 1 1 optimal\nrounds 1\nsend 0 n0 n1 1\nend\n"
)
RELAY = (
    "sccl 1\nsynth collective=broadcast k=0 steps=2 chunks=1 conflicts=1000 root=n0\n" + LINE_OF_3 + "frontier whole\n"
    "point 2 2 1 optimal\nrounds 1 1\nsend 0 n0 n1 1\nsend 0 n1 n2 2\nrefuted 1 1 1\nend\n"
)
ALLGATHER = (
    "sccl 1\nsynth collective=allgather k=1 steps=2 chunks=2 conflicts=7\ntopology 1\nnodes a b\ngroup 2 a>b b>a\nfrontier whole\n"
    "point 1 1 1 open\nrounds 1\nsend 0 a b 1\nsend 1 b a 1\npoint 1 2 2 optimal\nrounds 2\nsend 0 a b 1\nrefuted 2 2 2\n"
    "unknown 2 3 2 7\nend\n"
)
ALLREDUCE = (
    "sccl 1\nsynth collective=allreduce k=0 steps=1 chunks=1 conflicts=1000\ntopology 1\nnodes n0 n1\ngroup 1 n0>n1\n"
    "group 1 n1>n0\nfrontier reduce\npoint 1 1 1 optimal\nrounds 1\nsend 0 n1 n0 1\nsend 1 n0 n1 1\nfrontier gather\n"
    "point 1 1 1 optimal\nrounds 1\nsend 0 n0 n1 1\nsend 1 n1 n0 1\njoined\npoint 2 2 1 joined 1\nrounds 1 1\nsend 0 n1 n0 1\n"
    "send 1 n0 n1 1\nsend 0 n0 n1 2\nsend 1 n1 n0 2\nend\n"
)
CUSTOM = (
    "sccl 2\nsynth collective=custom k=0 steps=2 chunks=1 conflicts=1000\ntopology 2\nnodes a b c\ngroup 1 a>b\ngroup 1 b>c\n"
    "custom 1\nbefore 0 a\nafter 0 c\nfrontier whole\npoint 2 2 1 optimal\nrounds 1 1\nsend 0 a b 1\nsend 0 b c 2\n"
    "refuted 1 1 1\nend\n"
)
# The same by keys of which the words tell.
KEYED = BROADCAST.replace("root=n0\n", "root=n0 cuts=yes ordered=yes\n")

# JSON that is no topology or no report, or is one that another printer wrote; what is due is told by tests/oracle.
JSON_LINE = b'{"groups":[{"links":[["n0","n1"]],"width":1}],"nodes":["n0","n1"],"version":1}'
JSON = [("topology", it) for it in (
    JSON_LINE,
    b"", b" ", b"\n", b"null", b"true", b"0", b"[]", b"{}", b'""', b"{", b"}", b"[1,]", b"{'a':1}", b"NaN", b"Infinity", b"// a\n{}",
    # what stands before and behind
    b" \t\r\n" + JSON_LINE + b"\n\n", JSON_LINE + b"{}", JSON_LINE + b",", JSON_LINE + b"\0", b"\xef\xbb\xbf" + JSON_LINE, JSON_LINE * 2,
    # bytes that are not UTF-8, and texts that are no Unicode
    JSON_LINE.replace(b"n0", b"\xff"), JSON_LINE.replace(b"n0", b"\xc0\xae"), JSON_LINE.replace(b"n0", b"\xed\xa0\x80"),
    JSON_LINE.replace(b"n0", b"\\ud800"), JSON_LINE.replace(b"n0", b"\\udc00\\ud800"), JSON_LINE.replace(b"n0", b"\\ud83d\\ude00"),
    JSON_LINE.replace(b"n0", b"n\\u0030"), JSON_LINE.replace(b"n0", b"n\\x30"), JSON_LINE.replace(b"n0", b"n\t"), JSON_LINE.replace(b"n0", b"n\\u0000"),
    # numbers
    *(JSON_LINE.replace(b'"width":1', b'"width":' + it) for it in (
        b"0", b"16", b"17", b"-1", b"-0", b"01", b"+1", b"1.0", b"1e0", b"1E400", b"-1E400", b".1", b"1.", b"0x1", b'"1"', b"true", b"null",
        b"18446744073709551615", b"18446744073709551616", b"1" * 100000, b"1" + b"0" * 400, b"1e-400",
    )),
    # keys: twice, one too many, one too few
    JSON_LINE.replace(b'"version":1', b'"version":2,"version":1'), JSON_LINE.replace(b'"version":1', b'"version":1,"version":2'),
    JSON_LINE.replace(b'"version":1', b'"version":1,"custom":null'), JSON_LINE.replace(b',"version":1', b""), JSON_LINE.replace(b'"version":1', b'"version":2'),
    JSON_LINE.replace(b'"version":1', b'"version":2,"custom":{"after":[["n1"]],"before":[["n0"]]}'),
    JSON_LINE.replace(b'"version":1', b'"version":2,"custom":{"after":[["n1"]],"before":[]}'),
    JSON_LINE.replace(b'"version":1', b'"version":2,"custom":{"after":[],"before":[]}'),
    # deep, and long
    b"[" * 126 + b"]" * 126, b"[" * 127 + b"]" * 127, b"[" * 128 + b"]" * 128, b"[" * 500000 + b"]" * 500000, b"[" * 1048576, b'{"a":' * 200000 + b"1" + b"}" * 200000,
    b'"' + b"a" * 1000000 + b'"', b"[" + b"0," * 500000 + b"0]", b" " * 1048576, b"1" * 1048576,
    JSON_LINE.replace(b'["n0","n1"]]', b'["n0","n1"]' + b',["n0","n1"]' * 80000 + b"]"),
    b"{" + b",".join(b'"%d":0' % it for it in range(90000)) + b"}", b"{" + b",".join([b'"a":0'] * 170000) + b"}",
)]
JSON_KEYED = (
    b'{"frontiers":[{"part":"whole","points":[{"c":1,"mark":"optimal","r":1,"rounds":[1],"s":1,"sends":[[0,"n0","n1",1]]}],"refuted":[],'
    b'"unknown":[]}],"joined":[],"topology":{"groups":[{"links":[["n0","n1"]],"width":1},{"links":[["n1","n0"]],"width":1}],'
    b'"nodes":["n0","n1"],"version":1},"words":{"chunks":1,"collective":"broadcast","conflicts":1000,"cuts":"yes","k":0,"ordered":"yes",'
    b'"root":"n0","steps":1}}\n'
)
JSON += [("report", it) for it in (
    JSON_KEYED, JSON_KEYED.replace(b'"cuts":"yes",', b""), JSON_KEYED.replace(b'"ordered":"yes",', b""), JSON_KEYED.replace(b'"root":"n0",', b""),
    JSON_KEYED.replace(b'"yes"', b'"\\u0079es"'), JSON_KEYED.replace(b'"cuts":"yes"', b'"cuts":"no","cuts":"yes"'),
    # another value under a key, and keys that there are not
    *(JSON_KEYED.replace(b'"cuts":"yes"', b'"cuts":' + it) for it in (b'"no"', b'""', b'"Yes"', b'"yes "', b"true", b"1", b"null", b'["yes"]', b'{"yes":1}')),
    *(JSON_KEYED.replace(b'"ordered":"yes"', b'"ordered":' + it) for it in (b'"no"', b"false", b"0", b'"all"')),
    *(JSON_KEYED.replace(b'"ordered"', it) for it in (b'"kept"', b'"sets"', b'"order"', b'"cut"', b'"Ordered"')),
    JSON_KEYED.replace(b'"cuts":"yes"', b'"cuts":"yes","kept":"yes"'), JSON_KEYED.replace(b'"cuts":"yes"', b'"cuts":"yes","cuts":"no"'),
    # what breaks a rule of line 2, whose keys are right
    JSON_KEYED.replace(b'"k":0', b'"k":9'), JSON_KEYED.replace(b'"collective":"broadcast"', b'"collective":"allgather"'),
)]

# Reports: a text, what is replaced in it by what, and the code and the line.
REPORTS = [
    (BROADCAST, BROADCAST, "", 2, 1),
    (BROADCAST, "sccl 1", "sccl 3", 1, 1),
    (BROADCAST, "sccl 1", "sccl 2", 3, 2),
    (BROADCAST, "k=0", "k=9", 3, 2),
    (BROADCAST, "k=0", "k=00", 1, 2),
    (BROADCAST, "=broadcast", "=breadcast", 1, 2),
    (BROADCAST, "group 1 n0>n1", "group 0 n0>n1", 1, 5),
    (BROADCAST, "n0>n1", "n0>n0", 1, 5),
    (BROADCAST, "rounds 1\n", "rounds  1\n", 1, 9),
    (BROADCAST, "send 0", "send 1", 3, 10),
    (BROADCAST, "n0 n1 1\n", "n0 n1 2\n", 3, 10),
    (BROADCAST, "end\n", "end\nend\n", 1, 12),
    (CUSTOM, "before 0 a\n", "", 1, 8),
    (CUSTOM, "sccl 2", "sccl 1", 1, 2),
    (BROADCAST, "end\n", "", 2, 11),
    (BROADCAST, "optimal", "best", 1, 8),
    (BROADCAST, "point 1 1", "point 1 2", 3, 8),
    (BROADCAST, "rounds 1", "rounds 2", 3, 9),
    (BROADCAST, "root=n0", "root=n9", 3, 4),
    (BROADCAST, " root=n0", "", 1, 2),
    (BROADCAST, "=broadcast", "=custom", 1, 2),
    (BROADCAST, "topology 1", "topology 2", 1, 3),
    (BROADCAST, "end\n", "joined\nend\n", 1, 11),
    (RELAY, "refuted 1 1 1", "refuted 3 3 1", 3, 14),
    (RELAY, "send 0 n0 n1 1\nsend 0 n1 n2 2\n", "send 0 n1 n2 2\nsend 0 n0 n1 1\n", 3, 13),
    (RELAY, "send 0", "send 1", 3, 12),
    (RELAY, "n0 n1 1\n", "n0 n9 1\n", 1, 12),
    (RELAY, "rounds 1 1", "rounds 1 65536", 1, 11),
    (RELAY, "end\n", "end\nend\n", 1, 16),
    (RELAY, "conflicts=1000", "conflicts=0", 3, 2),
    (RELAY, "root=n0", "root=n9", 3, 4),
    (ALLGATHER, "unknown 2 3 2 7\n", "unknown 2 3 2 18446744073709551623\n", 3, 15),
    (ALLGATHER, "=allgather", "=alltoall", 3, 7),
    (ALLREDUCE, "joined 1\n", "joined 2\n", 3, 18),
    (CUSTOM, "=custom", "=allgather", 3, 2),
    (CUSTOM, "topology 2", "topology 1", 1, 3),
    (CUSTOM, "before 0 a", "before 0 c a", 1, 8),
    # keys of which the words tell: each once, in their order, at the very end, and with the one value
    *((BROADCAST, " root=n0", it, 1, 2) for it in (
        " root=n0 ordered=yes cuts=yes", " root=n0 cuts=no", " root=n0 cuts=", " root=n0 cuts", " root=n0 Cuts=yes", " root=n0 cuts=yes cuts=yes",
        " root=n0 ordered=yes ordered=yes", " root=n0 ordered=no", " root=n0 kept=yes", " root=n0 sets=all", " root=n0 cuts=yes kept=yes",
        " root=n0 cuts=yes ordered=yes kept=yes", " root=n0 cuts=yes ", " root=n0  cuts=yes", " cuts=yes root=n0", " cuts=yes root=n0 ordered=yes",
        " cuts=yes", " cuts=yes ordered=yes", " root=n0 cuts=yes=", " root=n0 cuts=yesordered=yes", " root=n0 root=n0 cuts=yes",
    )),
    (BROADCAST, " k=0", " cuts=yes k=0", 1, 2),
    (ALLGATHER, "conflicts=7\n", "conflicts=7 root=a cuts=yes\n", 1, 2),
    (ALLGATHER, "conflicts=7\n", "conflicts=7 ordered=yes cuts=yes\n", 1, 2),
    (KEYED, "ordered=yes\n", "ordered=yes", 1, 2),
    (KEYED, "k=0", "k=9", 3, 2),
    (KEYED, "root=n0", "root=n9", 3, 4),
    (KEYED, " root=n0", "", 1, 2),
    (KEYED, "point 1 1", "point 1 2", 3, 8),
]

# Families: the kind, the sizes that there are, and how many links there are at each.
FAMILIES = {
    "line": {it: 2 * it - 2 for it in range(1, 17)},
    "ring": {it: 2 * it for it in range(3, 17)},
    "complete": {it: it * (it - 1) for it in range(1, 17)},
    "shared": {it: it * (it - 1) for it in range(2, 17)},
    "cube": {2: 2, 4: 8, 8: 24, 16: 64},
    "torus": {9: 36, 12: 48, 16: 64},
    "mesh": {8: 32},
    "switch": {it: 2 * it * (it - 1) for it in range(2, 17)},
    "boxes": {8: 56, 12: 132, 16: 240},
}
FAMILY_TEXTS = {
    ("line", 3): LINE_OF_3,
    ("ring", 3): "topology 1\nnodes n0 n1 n2\ngroup 1 n0>n1\ngroup 1 n0>n2\ngroup 1 n1>n0\ngroup 1 n1>n2\ngroup 1 n2>n0\n"
    "group 1 n2>n1\n",
    ("cube", 4): "topology 1\nnodes n0 n1 n2 n3\ngroup 1 n0>n1\ngroup 1 n0>n2\ngroup 1 n1>n0\ngroup 1 n1>n3\ngroup 1 n2>n0\n"
    "group 1 n2>n3\ngroup 1 n3>n1\ngroup 1 n3>n2\n",
    ("shared", 3): "topology 1\nnodes n0 n1 n2\ngroup 1 n0>n1 n0>n2 n1>n0 n1>n2 n2>n0 n2>n1\n",
    ("torus", 9): "topology 1\nnodes n0 n1 n2 n3 n4 n5 n6 n7 n8\ngroup 1 n0>n1\ngroup 1 n0>n2\ngroup 1 n0>n3\ngroup 1 n0>n6\n"
    "group 1 n1>n0\ngroup 1 n1>n2\ngroup 1 n1>n4\ngroup 1 n1>n7\ngroup 1 n2>n0\ngroup 1 n2>n1\ngroup 1 n2>n5\n"
    "group 1 n2>n8\ngroup 1 n3>n0\ngroup 1 n3>n4\ngroup 1 n3>n5\ngroup 1 n3>n6\ngroup 1 n4>n1\ngroup 1 n4>n3\n"
    "group 1 n4>n5\ngroup 1 n4>n7\ngroup 1 n5>n2\ngroup 1 n5>n3\ngroup 1 n5>n4\ngroup 1 n5>n8\ngroup 1 n6>n0\n"
    "group 1 n6>n3\ngroup 1 n6>n7\ngroup 1 n6>n8\ngroup 1 n7>n1\ngroup 1 n7>n4\ngroup 1 n7>n6\ngroup 1 n7>n8\n"
    "group 1 n8>n2\ngroup 1 n8>n5\ngroup 1 n8>n6\ngroup 1 n8>n7\n",
    ("switch", 3): "topology 1\nnodes n0 n1 n2\ngroup 1 n0>n1 n0>n2\ngroup 1 n1>n0 n1>n2\ngroup 1 n2>n0 n2>n1\ngroup 1 n1>n0 n2>n0\n"
    "group 1 n0>n1 n2>n1\ngroup 1 n0>n2 n1>n2\n",
    ("boxes", 8): "topology 1\nnodes n0 n1 n2 n3 n4 n5 n6 n7\ngroup 1 n0>n1\ngroup 1 n0>n2\ngroup 1 n0>n3\ngroup 1 n1>n0\ngroup 1 n1>n2\n"
    "group 1 n1>n3\ngroup 1 n2>n0\ngroup 1 n2>n1\ngroup 1 n2>n3\ngroup 1 n3>n0\ngroup 1 n3>n1\ngroup 1 n3>n2\n"
    "group 1 n4>n5\ngroup 1 n4>n6\ngroup 1 n4>n7\ngroup 1 n5>n4\ngroup 1 n5>n6\ngroup 1 n5>n7\ngroup 1 n6>n4\n"
    "group 1 n6>n5\ngroup 1 n6>n7\ngroup 1 n7>n4\ngroup 1 n7>n5\ngroup 1 n7>n6\n"
    "group 1 n0>n4 n0>n5 n0>n6 n0>n7 n1>n4 n1>n5 n1>n6 n1>n7 n2>n4 n2>n5 n2>n6 n2>n7 n3>n4 n3>n5 n3>n6 n3>n7\n"
    "group 1 n4>n0 n4>n1 n4>n2 n4>n3 n5>n0 n5>n1 n5>n2 n5>n3 n6>n0 n6>n1 n6>n2 n6>n3 n7>n0 n7>n1 n7>n2 n7>n3\n",
}

# Words, all but one of a command: the last within its range, at both ends, and below and above.
RANGES = [
    ("synth collective=broadcast steps=1 chunks=1 conflicts=1", "k=0", "k=8", "k=", "k=9"),
    ("synth collective=broadcast k=0 chunks=1 conflicts=1", "steps=1", "steps=8", "steps=0", "steps=9"),
    ("synth collective=broadcast k=0 steps=1 conflicts=1", "chunks=1", "chunks=16", "chunks=0", "chunks=17"),
    ("synth collective=broadcast k=0 steps=1 chunks=1", "conflicts=1", "conflicts=100000", "conflicts=0", "conflicts=100001"),
    ("programs", "point=1", "point=65535", "point=0", "point=65536"),
    ("replay point=1", "order=0", "order=18446744073709551615", "order=-1", "order=18446744073709551616"),
    ("synth collective=broadcast k=0 steps=1 chunks=1 conflicts=1", "cuts=yes", "cuts=yes", "cuts=no", "cuts=yess"),
    ("synth collective=allreduce k=0 steps=1 chunks=1 conflicts=1", "ordered=yes", "ordered=yes", "ordered=ye", "ordered=YES"),
    ("synth cuts=yes k=0 ordered=yes collective=scatter steps=1 chunks=1 conflicts=1", "kept=yes", "kept=yes", "kept=", "kept=all"),
    ("bound collective=broadcast k=0 steps=1 chunks=1 conflicts=1", "sets=all", "sets=all", "sets=", "sets=yes"),
]

# Words that are refused, with the code and the index of the word.
WORDS = [
    ("sing", 2, 0),
    ("--help", 2, 0),
    ("check ", 3, 1),
    ("synth k=0 k=0", 4, 2),
    ("bound", 5, 1),
    ("bound collective=allreduce k=0 steps=1 chunks=1 conflicts=1", 6, 1),
    ("bound k=0 collective=allreduce k=0", 6, 2),
    ("bound point=1", 3, 1),
    ("bound collective=alltoall k=0 steps=1 chunks=2 conflicts=1000 root=n0", 7, 6),
    ("synth k=0", 5, 2),
    ("synth k=00", 6, 1),
    ("synth k=+1", 6, 1),
    ("replay point=1=1", 6, 1),
    ("family kind=cube size=6", 6, 2),
    ("family size=6 kind=cube", 6, 1),
    ("family size=17 kind=cone", 6, 1),
    ("family kind=torus size=10", 6, 2),
    ("family kind=mesh size=16", 6, 2),
    ("family kind=switch size=1", 6, 2),
    ("family kind=boxes size=4", 6, 2),
    ("family size=8 kind=box", 6, 2),
    ("synth collective=alltoall k=0 steps=1 chunks=2 conflicts=1000 root=n0", 7, 6),
    ("synth chunks=17", 6, 1),
    # keys with one value, which no other command has
    *((f"{command} {word}", 3, 1) for word in ("cuts=yes", "ordered=yes", "kept=yes", "kept=no")
      for command in ("bound", "ordered", "check", "replay", "programs", "family", "trial", "degrade", "json", "unjson")),
    *((f"{command} sets=all", 3, 1) for command in ("synth", "ordered", "check", "degrade", "json", "trial")),
    ("synth cuts", 3, 1),
    ("synth cuts=yes cuts=yes", 4, 2),
    ("synth cuts=yes cuts=no", 4, 2),
    ("synth kept=yes ordered=yes kept=yes", 4, 3),
    ("bound sets=all sets=listed", 4, 2),
    ("synth cuts=all", 6, 1),
    ("synth kept=yes=yes", 6, 1),
    ("synth ordered=1 k=9", 6, 1),
    ("bound sets=listed", 6, 1),
    ("synth cuts=yes ordered=yes kept=yes", 5, 4),
    ("bound sets=all", 5, 2),
    ("synth cuts=yes collective=allgather kept=yes k=0 steps=1 chunks=1 conflicts=1 root=n0", 7, 8),
    ("bound sets=all collective=allreduce", 6, 2),
]

TWO_POINTS = (
    "sccl 1\nsynth collective=broadcast k=0 steps=3 chunks=2 conflicts=1000 root=n0\n" + LINE_OF_3 + "frontier whole\n"
    "point 2 2 1 optimal\nrounds 1 1\nsend 0 n0 n1 1\nsend 0 n1 n2 2\npoint 3 3 2 optimal\nrounds 1 1 1\nsend 0 n0 n1 1\n"
    "send 0 n1 n2 2\nsend 1 n0 n1 2\nsend 1 n1 n2 3\nrefuted 1 1 2\nrefuted 1 1 1\nrefuted 2 2 2\nend\n"
)
TWO_CHUNKS = BROADCAST.replace("chunks=1", "chunks=2").replace("point 1 1 1", "point 1 1 2").replace("send 0 n0 n1 1\n", "send 0 n0 n1 1\nsend 1 n0 n1 1\n")

# A sum that takes one contribution twice, and a joined point in which two nodes bring a chunk to one in a step that copies.
ADDED_TWICE = (
    "sccl 1\nsynth collective=reduce k=0 steps=2 chunks=1 conflicts=1000 root=n0\ntopology 1\nnodes n0 n1\ngroup 1 n1>n0\n"
    "frontier whole\npoint 2 2 1 open\nrounds 1 1\nsend 0 n1 n0 1\nsend 0 n1 n0 2\nend\n"
)
BROUGHT_TWICE = (
    "sccl 1\nsynth collective=allreduce k=0 steps=1 chunks=1 conflicts=1000\ntopology 1\nnodes n0 n1 n2\ngroup 1 n1>n0\n"
    "group 1 n2>n0\nfrontier reduce\nfrontier gather\njoined\npoint 2 2 1 joined 1\nrounds 1 1\nsend 0 n1 n0 2\nsend 0 n2 n0 2\nend\n"
)
THREE_APART = "n0 0=100 1=100 2=100\nn1 0=010 1=010 2=010\nn2 0=001 1=001 2=001\n"

# Replays: the number of the point, the report, and the text.
REPLAYS = [
    (1, BROADCAST.replace("send 0 n0 n1 1\n", ""), "replay 1\nstep 0\nn0 0\nn1\nstep 1\nn0 0\nn1\nlacking 0 n1\nend\n"),
    (1, BROADCAST.replace("send 0 n0 n1 1\n", "send 0 n1 n0 1\n"), "replay 1\nstep 0\nn0 0\nn1\nstep 1\nn0 0\nn1\nlacking 0 n1\nend\n"),
    (1, TWO_CHUNKS, "replay 1\nstep 0\nn0 0 1\nn1\nstep 1\nn0 0 1\nn1 0 1\noverfull 1 0 2\nend\n"),
    (1, RELAY, "replay 1\nstep 0\nn0 0\nn1\nn2\nstep 1\nn0 0\nn1 0\nn2\nstep 2\nn0 0\nn1 0\nn2 0\nholds\nend\n"),
    (2, TWO_POINTS, "replay 2\nstep 0\nn0 0 1\nn1\nn2\nstep 1\nn0 0 1\nn1 0\nn2\nstep 2\nn0 0 1\nn1 0 1\nn2 0\nstep 3\nn0 0 1\nn1 0 1\nn2 0 1\nholds\nend\n"),
    (2, ALLREDUCE, "replay 2\nstep 0\nn0 0\nn1 1\nstep 1\nn0 0 1\nn1 0 1\nholds\nend\n"),
    (1, ADDED_TWICE, "replay 1\nstep 0\nn0 0=10\nn1 0=01\nstep 1\nn0 0=11\nn1 0=01\nstep 2\nn0 0=12\nn1 0=01\ntwice 0 n0 n1\nend\n"),
    (
        1, BROUGHT_TWICE,
        f"replay 1\nstep 0\n{THREE_APART}step 1\n{THREE_APART}step 2\n{THREE_APART.replace('0=100', '0=001')}clash 0 n0 2\nend\n",
    ),
    (3, TWO_POINTS, None),
    (65535, RELAY, None),
]

# Searches: the family, the words, the lines that tell of candidates, and how many sends there are.
SEARCHES = [
    ("ring 4", "allgather 1 3 2", "point 2 3 2 optimal|refuted 1 1 2|refuted 1 1 1|refuted 1 2 2|refuted 1 2 1|refuted 2 2 2", 24),
    ("ring 4", "broadcast 1 3 2", "point 2 2 2 optimal|refuted 1 1 2|refuted 1 1 1|refuted 1 2 2|refuted 1 2 1", 6),
    (
        "ring 4", "allreduce 1 3 2",
        "point 2 3 2 optimal|refuted 1 1 2|refuted 1 1 1|refuted 1 2 2|refuted 1 2 1|refuted 2 2 2|point 2 3 2 optimal|refuted 1 1 2|"
        "refuted 1 1 1|refuted 1 2 2|refuted 1 2 1|refuted 2 2 2|point 4 6 2 joined 2", 96,
    ),
    ("ring 4", "reduce 1 3 2", "point 2 2 2 optimal|refuted 1 1 2|refuted 1 1 1|refuted 1 2 2|refuted 1 2 1", 6),
    ("line 3", "broadcast 0 3 2", "point 2 2 1 optimal|point 3 3 2 optimal|refuted 1 1 2|refuted 1 1 1|refuted 2 2 2", 6),
    ("shared 3", "broadcast 1 2 1", "point 1 2 1 optimal|refuted 1 1 1", 2),
    ("cube 8", "allgather 0 3 1", "point 3 3 1 optimal|refuted 1 1 1|refuted 2 2 1", 56),
    ("line 3", "gather 1 2 1", "point 2 2 1 optimal|refuted 1 1 1|refuted 1 2 1", 3),
    ("line 3", "scatter 1 2 1", "point 2 2 1 optimal|refuted 1 1 1|refuted 1 2 1", 3),
    ("complete 3", "alltoall 0 1 3", "point 1 1 3 optimal", 6),
    ("complete 3", "reducescatter 0 1 1", "point 1 1 1 optimal", 6),
]

# Searches that tell their cuts: the topology, the words and the root, and what stands behind the line of the words, without
# rounds and sends.
BACK_OF_2 = "topology 1\nnodes a b\ngroup 1 b>a\n"
BOUNDS = [
    (
        "topology 1\nnodes n0 n1 n2 n3\ngroup 1 n0>n1\ngroup 1 n0>n3\ngroup 1 n1>n0\ngroup 1 n1>n2\ngroup 1 n2>n1\n"
        "group 1 n2>n3\ngroup 1 n3>n0\ngroup 1 n3>n2\n", "allgather 1 3 2", "",
        "floor 3 2 n0|frontier whole|point 2 3 2 optimal|cut 1 1 2 n0|cut 1 1 1 n0|cut 1 2 2 n0|cut 2 2 2 n0|refuted 1 2 1|end",
    ),
    (BACK_OF_2, "broadcast 0 2 1", " root=a", "floor 1 0 b|frontier whole|cut 1 1 1 b|cut 2 2 1 b|end"),
    # a reduction over the links turned round: b's share comes over the link back, and none comes to b
    (BACK_OF_2, "reduce 0 1 1", " root=a", "floor 1 1 b|frontier whole|point 1 1 1 optimal|end"),
    (BACK_OF_2.replace("b>a", "a>b"), "reduce 0 1 1", " root=a", "floor 1 0 b|frontier whole|cut 1 1 1 b|end"),
    (LINE_OF_3, "reduce 0 3 2", " root=n0", "floor 1 1 n2|frontier whole|point 2 2 1 optimal|point 3 3 2 optimal|cut 1 1 2 n2|refuted 1 1 1|refuted 2 2 2|end"),
    # what has to come into two nodes over one link
    (LINE_OF_3, "scatter 0 1 1", " root=n0", "floor 2 1 n1 n2|frontier whole|cut 1 1 1 n1 n2|end"),
    # a pattern, and one of which nothing has to move
    (GIVEN + "custom 1\nbefore 0 a\nafter 0 c\n", "custom 0 2 2", "", "floor 1 1 c|frontier whole|point 2 2 1 optimal|cut 1 1 2 c|refuted 1 1 1|refuted 2 2 2|end"),
    (GIVEN + "custom 1\nbefore 0 a\nafter 0 a\n", "custom 0 1 1", "", "floor 0 1|frontier whole|point 1 1 1 optimal|end"),
    # one node, into which nothing has to come
    ("topology 1\nnodes n0\n", "allgather 0 1 1", "", "floor 0 1|frontier whole|point 1 1 1 optimal|end"),
    # two groups that share a link carry it once: the second is taken for its other link alone
    ("topology 1\nnodes a b c\ngroup 1 a>c\ngroup 2 a>c b>c\ngroup 4 b>c\n", "gather 0 1 4", " root=c", "floor 1 1 b c|frontier whole|point 1 1 1 optimal|cut 1 1 4 c|cut 1 1 3 c|cut 1 1 2 c|end"),
]

# Searches by ordered schedules: the words, the topology, and the lines behind `frontier whole` where there is just one such text.
ORDERED = [
    ("broadcast 0 3 2 root=n0", LINE_OF_3, TWO_POINTS.split("frontier whole\n")[1]),
    ("alltoall 0 1 2", "topology 1\nnodes n0 n1\ngroup 1 n0>n1\ngroup 1 n1>n0\n", "point 1 1 2 optimal\nrounds 1\nsend 1 n1 n0 1\nsend 2 n0 n1 1\nend\n"),
    # a sum, whose inverse is ordered
    (
        "reduce 0 3 2 root=n0", LINE_OF_3,
        "point 2 2 1 optimal\nrounds 1 1\nsend 0 n2 n1 1\nsend 0 n1 n0 2\npoint 3 3 2 optimal\nrounds 1 1 1\nsend 1 n2 n1 1\n"
        "send 0 n2 n1 2\nsend 1 n1 n0 2\nsend 0 n1 n0 3\nrefuted 1 1 2\nrefuted 1 1 1\nrefuted 2 2 2\nend\n",
    ),
    # two copies of a pattern
    (
        "custom 0 3 2", GIVEN + "custom 1\nbefore 0 a\nafter 0 c\n",
        "point 2 2 1 optimal\nrounds 1 1\nsend 0 a b 1\nsend 0 b c 2\npoint 3 3 2 optimal\nrounds 1 1 1\nsend 0 a b 1\n"
        "send 0 b c 2\nsend 1 a b 2\nsend 1 b c 3\nrefuted 1 1 2\nrefuted 1 1 1\nrefuted 2 2 2\nend\n",
    ),
    # chunks that are where they have to be, chunks that are nowhere and asked for nowhere, and two for which a node waits
    (
        "custom 0 2 1", "topology 2\nnodes a b\ngroup 1 a>b\ncustom 6\nbefore 0 a\nafter 0 a\nbefore 1 a\nafter 1 b\nbefore 2\nafter 2\n"
        "before 3 a\nafter 3 a\nbefore 4\nafter 4\nbefore 5 a\nafter 5 b\n",
        "point 2 2 1 optimal\nrounds 1 1\nsend 1 a b 1\nsend 5 a b 2\nrefuted 1 1 1\nend\n",
    ),
]

# The same where there may be several texts: the lines that tell of candidates.
ORDERED_LINES = [
    # the chunks of one node are alike
    (
        "gather 0 3 2 root=a", "topology 1\nnodes a b c\ngroup 2 b>a\ngroup 1 c>b\n",
        "point 2 2 1 optimal|point 3 3 2 optimal|refuted 1 1 2|refuted 1 1 1|refuted 2 2 2",
    ),
    ("scatter 0 3 2 root=c", "topology 1\nnodes a b c\ngroup 1 b>a\ngroup 2 c>b\n", "point 2 2 1 optimal|point 3 3 2 optimal|refuted 1 1 2|refuted 1 1 1|refuted 2 2 2"),
]

# Searches whose proofs stay short: the family, the words, and how many lines the refutations had when they were counted.
PROOF_LINES = [
    ("ring 6", "allgather 1 4 3", 545),
    ("cube 8", "alltoall 0 3 8", 797),
]

# What no schedule does: a broadcast against the only link, and a chunk that no node has.
UNSOLVED = [
    ("broadcast", "topology 1\nnodes a b\ngroup 1 b>a\n"),
    ("custom", "topology 2\nnodes a b c\ngroup 1 a>b\ngroup 1 b>c\ncustom 1\nbefore 0\nafter 0 c\n"),
]

# Faults: the words and the topology of a search, the fault, and what is written behind the words of its report.
ONE_WAY_TWICE = "topology 1\nnodes n0 n1\ngroup 2 n0>n1 n1>n0\ngroup 1 n0>n1\n"
TO_C = GIVEN + "custom 1\nbefore 0 a\nafter 0 c\n"
FAULTS = [
    (
        "broadcast 0 2 1 root=n0", LINE_OF_3, "group=0 width=0",
        "topology 1|nodes n0 n1 n2|group 1 n1>n0|group 1 n1>n2|group 1 n2>n1|frontier whole|carried 1 1 1|refuted 2 2 1|end",
    ),
    (
        "broadcast 0 2 1 root=n0", LINE_OF_3, "group=1 width=0",
        "topology 1|nodes n0 n1 n2|group 1 n0>n1|group 1 n1>n2|group 1 n2>n1|frontier whole|point 2 2 1 optimal|rounds 1 1|"
        "send 0 n0 n1 1|send 0 n1 n2 2|carried 1 1 1|end",
    ),
    # a reduction, whose way is cut and whose way back is
    (
        "reduce 0 2 1 root=n0", LINE_OF_3, "group=1 width=0",
        "topology 1|nodes n0 n1 n2|group 1 n0>n1|group 1 n1>n2|group 1 n2>n1|frontier whole|carried 1 1 1|refuted 2 2 1|end",
    ),
    (
        "reduce 0 2 1 root=n0", LINE_OF_3, "width=0 group=2",
        "topology 1|nodes n0 n1 n2|group 1 n0>n1|group 1 n1>n0|group 1 n2>n1|frontier whole|point 2 2 1 optimal|rounds 1 1|"
        "send 0 n2 n1 1|send 0 n1 n0 2|carried 1 1 1|end",
    ),
    # a pattern
    (
        "custom 0 2 1", TO_C, "group=0 width=0",
        "topology 2|nodes a b c|group 1 b>c|custom 1|before 0 a|after 0 c|frontier whole|carried 1 1 1|refuted 2 2 1|end",
    ),
    # links that stand in several groups: those of the first are gone from the second, which has no other
    (
        "broadcast 0 1 1 root=n0", ONE_WAY_TWICE, "group=0 width=0",
        "topology 1|nodes n0 n1|frontier whole|refuted 1 1 1|end",
    ),
    (
        "broadcast 0 1 1 root=n0", ONE_WAY_TWICE, "group=1 width=0",
        "topology 1|nodes n0 n1|group 2 n1>n0|frontier whole|refuted 1 1 1|end",
    ),
    # a narrower group keeps its links, and they stay in the other; two chunks take a round more
    (
        "broadcast 1 1 2 root=n0", "topology 1\nnodes n0 n1\ngroup 2 n0>n1\n", "group=0 width=1",
        "topology 1|nodes n0 n1|group 1 n0>n1|frontier whole|point 1 1 1 optimal|rounds 1|send 0 n0 n1 1|refuted 1 1 2|end",
    ),
    # by the words of the report: a candidate that is carried is not cut, and one that is cut is refuted
    (
        "broadcast 0 2 1 root=n0 cuts=yes ordered=yes", LINE_OF_3, "group=0 width=0",
        "topology 1|nodes n0 n1 n2|group 1 n1>n0|group 1 n1>n2|group 1 n2>n1|frontier whole|carried 1 1 1|refuted 2 2 1|end",
    ),
    (
        "reduce 0 2 1 root=n0 ordered=yes", LINE_OF_3, "width=0 group=2",
        "topology 1|nodes n0 n1 n2|group 1 n0>n1|group 1 n1>n0|group 1 n2>n1|frontier whole|point 2 2 1 optimal|rounds 1 1|"
        "send 0 n2 n1 1|send 0 n1 n0 2|carried 1 1 1|end",
    ),
    (
        "broadcast 0 1 1 root=n0", ONE_WAY_TWICE, "group=0 width=1",
        "topology 1|nodes n0 n1|group 1 n0>n1 n1>n0|group 1 n0>n1|frontier whole|point 1 1 1 optimal|rounds 1|send 0 n0 n1 1|end",
    ),
]

# Faults that a report does not take: the report, the fault, the code and the index of the word.
FAULTS_REFUSED = [
    (RELAY, "group=4 width=0", 14, 1),
    (RELAY, "width=0 group=4", 14, 2),
    (RELAY, "group=255 width=16", 14, 1),
    (RELAY, "group=0 width=1", 15, 2),
    (RELAY, "width=16 group=0", 15, 1),
    (ALLREDUCE, "group=0 width=0", 13, 0),
    (ALLREDUCE, "group=9 width=9", 13, 0),
    (CUSTOM, "group=2 width=0", 14, 1),
]

# Faults of searches over families: the family, the words, and the faults.
FAULT_SEARCHES = [
    ("ring 4", "allgather 1 3 2", "0 3"),
    ("ring 4", "reduce 1 3 2 root=n0", "0 1 6"),
    ("complete 4", "scatter 1 2 2 root=n0", "0 11"),
    ("shared 3", "broadcast 1 2 1 root=n0", "0"),
    ("cube 4", "reducescatter 0 2 1", "0 5"),
    ("complete 3", "alltoall 0 2 3", "0 2"),
]
