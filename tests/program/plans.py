#!/usr/bin/env python3
"""Runs the program on plans and replays: plans that are drawn and done, texts of them that it has to refuse, and schedules.

    tests/program/plans.py

What is expected was worked out by hand; of what threads do it is that the history has an order, or how many events it has. The last
line counts what passed and failed.
"""

import functools
import json
import sys

sys.dont_write_bytecode = True
from rows import (  # noqa: E402
    JSON, LENGTH, LONGEST_TEXT, MOST_CALLS, NO_PLAN, TOO_MANY_CALLS,
    answer, compare, history, inserts, pairs_listed, piped, scans_of_inserts,
)

BAD_MIX = "plan: 1 BadMix\nwanted shares of gets, inserts, removes and scans that are 100 together\n"
BAD_RANGE = "plan: 2 BadRange\nwanted a least key that is not above the greatest\n"
NO_REPLAY = (
    'replay: 7 Shape\nwanted {"version":1,"variant":NAME,"rows":[N,N,N,N],"limit":N,"scripts":[[C,..],..],"schedule":[ITEM,..]}, '
    'and in version 2 "start":[[K,V],..]; ITEM is [P,"turns",N], [P,"end"] or [P,"until",POINT]; C is as in a plan\n'
)
NO_PROCESS = "1 NoProcess\nwanted an item whose process has a script, from 0\n"
NOTHING_TO_DO = "2 NothingToDo\nwanted a process with an open call, or with a call left in its script\n"
TURN_LIMIT = "3 TurnLimit\nwanted no more turns than the limit\n"

# Of a plan that is drawn: processes, calls, shares of gets, inserts, removes and scans, the least key and the greatest; and its scripts.
# Each insert's value is the third word of a stream of its own, modulo 2^30.
DRAWN = [
    ((1, 0, 100, 0, 0, 0, 5, 5), "[[]]"),
    ((1, 0, 50, 30, 10, 10, 0, 9), "[[]]"),
    ((1, 2, 100, 0, 0, 0, 5, 5), '[[["get",5],["get",5]]]'),
    ((2, 1, 0, 0, 100, 0, 7, 7), '[[["remove",7]],[["remove",7]]]'),
    ((2, 1, 0, 100, 0, 0, 7, 7), '[[["insert",7,357083581]],[["insert",7,418225680]]]'),
    ((1, 1, 0, 0, 0, 100, 3, 3), '[[["scan",3,3]]]'),
]

# The same, and the script of process 54 of 55. From the seed 42 the stream 54 has the words that the generator's authors print:
# 2707161783, 2068313097, 3122475824, 2211639955, 3215226955, 3421331566.
KNOWN_WORDS = [
    ((55, 2, 50, 30, 10, 10, 0, 9), [["remove", 7], ["get", 5]]),
    ((55, 2, 0, 100, 0, 0, 0, 9), [["insert", 7, 974992176], ["insert", 5, 200106094]]),
    ((55, 2, 0, 0, 0, 100, 0, 9), [["scan", 4, 7], ["scan", 5, 6]]),
    ((55, 3, 0, 0, 100, 0, 0, 4294967295), [["remove", 2068313097], ["remove", 2211639955], ["remove", 3421331566]]),
]

# The same, and why no plan is drawn. Sums and products past 2^32 are no smaller ones.
UNDRAWN = [
    ((1, 1, 0, 0, 0, 0, 0, 9), BAD_MIX),
    ((1, 1, 50, 30, 10, 11, 0, 9), BAD_MIX),
    ((1, 1, 4294967295, 101, 0, 0, 0, 9), BAD_MIX),
    ((0, 0, 50, 30, 10, 11, 9, 0), BAD_MIX),
    ((0, 65, 100, 0, 0, 1, 9, 0), BAD_MIX),
    ((4294967295, 4294967295, 4294967295, 101, 0, 0, 0, 4294967295), BAD_MIX),
    ((1, 1, 50, 30, 10, 10, 9, 0), BAD_RANGE),
    ((64, 65, 50, 30, 10, 10, 9, 0), BAD_RANGE),
    ((64, 65, 100, 0, 0, 0, 9, 0), BAD_RANGE),
    ((0, 1, 50, 30, 10, 10, 0, 9), TOO_MANY_CALLS),
    ((0, 1, 100, 0, 0, 0, 0, 9), TOO_MANY_CALLS),
    ((64, 65, 50, 30, 10, 10, 0, 9), TOO_MANY_CALLS),
    ((64, 65, 100, 0, 0, 0, 0, 9), TOO_MANY_CALLS),
    ((65, 0, 50, 30, 10, 10, 0, 9), TOO_MANY_CALLS),
    ((1, 4097, 50, 30, 10, 10, 0, 9), TOO_MANY_CALLS),
    ((64, 67108864, 50, 30, 10, 10, 0, 9), TOO_MANY_CALLS),
    ((4294967295, 4294967295, 50, 30, 10, 10, 0, 9), TOO_MANY_CALLS),
]

TREES = ["coupled", "optimistic", "read-unchecked", "scan-unvalidated", "lock-unchecked", "early-release"]

EMPTY = '{"events":[],"version":1}\n'
INSERT_THEN_GET_PLAN = '{"scripts":[[["insert",5,7],["get",5]]],"version":1}'

# Plans whose calls come one after another, and the history that is recorded at each tree.
DONE = [
    (
        INSERT_THEN_GET_PLAN,
        '{"events":[{"invoke":["insert",5,7],"process":0},{"answer":null,"process":0},'
        '{"invoke":["get",5],"process":0},{"answer":7,"process":0}],"version":1}\n',
    ),
    ('{"scripts":[[]],"version":1}', EMPTY),
    ('{"version":2,"scripts":[[],[]]}', EMPTY),
    (
        '{"scripts":[[],[["remove",5]],[]],"version":1}',
        '{"events":[{"invoke":["remove",5],"process":1},{"answer":null,"process":1}],"version":1}\n',
    ),
    (' { "version" : 1 , "scripts" : [ [ ] ] } ', EMPTY),
    (
        '{"scripts":[[["insert",4294967295,1073741823],["remove",0],["scan",3,3]]],"version":1}',
        '{"events":[{"invoke":["insert",4294967295,1073741823],"process":0},{"answer":null,"process":0},'
        '{"invoke":["remove",0],"process":0},{"answer":null,"process":0},'
        '{"invoke":["scan",3,3],"process":0},{"answer":[],"process":0}],"version":1}\n',
    ),
    (
        '{"scripts":[[["get",5]]],"version":2}',
        '{"events":[{"invoke":["get",5],"process":0},{"answer":null,"process":0}],"version":1}\n',
    ),
    (
        '{"scripts":[[["insert",5,7],["replace",5,7,8],["get",5]]],"version":2}',
        '{"events":[{"invoke":["insert",5,7],"process":0},{"answer":null,"process":0},{"invoke":["replace",5,7,8],"process":0},'
        '{"answer":7,"process":0},{"invoke":["get",5],"process":0},{"answer":8,"process":0}],"start":[],"version":2}\n',
    ),
    (
        '{"scripts":\n[[["insert",5,7],["replace",5,7,8],["replace",5,7,9],["get",5]]],"version":2}',
        '{"events":[{"invoke":["insert",5,7],"process":0},{"answer":null,"process":0},'
        '{"invoke":["replace",5,7,8],"process":0},{"answer":7,"process":0},'
        '{"invoke":["replace",5,7,9],"process":0},{"answer":8,"process":0},'
        '{"invoke":["get",5],"process":0},{"answer":8,"process":0}],"start":[],"version":2}\n',
    ),
]

# Calls that one process makes, and what each map answers them: the pairs come in out of order, and lie at both ends of the keys too.
IN_TURN = [
    [
        ('"get",7', "null"),
        ('"insert",7,70', "null"),
        ('"insert",4,40', "null"),
        ('"insert",9,90', "null"),
        ('"insert",7,71', "70"),
        ('"get",7', "71"),
        ('"get",8', "null"),
        ('"remove",8', "null"),
        ('"remove",4', "40"),
        ('"get",4', "null"),
        ('"scan",0,4294967295', "[[7,71],[9,90]]"),
    ],
    [
        ('"insert",7,70', "null"),
        ('"insert",4294967295,9', "null"),
        ('"insert",0,1', "null"),
        ('"insert",4,40', "null"),
        ('"scan",4,7', "[[4,40],[7,70]]"),
        ('"scan",5,4294967295', "[[7,70],[4294967295,9]]"),
        ('"scan",0,0', "[[0,1]]"),
        ('"scan",8,9', "[]"),
        ('"replace",7,70,71', "70"),
        ('"get",7', "71"),
        ('"replace",7,70,72', "71"),
        ('"get",7', "71"),
        ('"replace",5,0,1', "null"),
        ('"get",5', "null"),
        ('"replace",4,40,40', "40"),
        ('"scan",0,4294967295', "[[0,1],[4,40],[7,71],[4294967295,9]]"),
    ],
]

GET_PLAN = '{"scripts":[[["get",5]]],"version":1}'
PENDING = '{"events":[{"invoke":["get",5],"process":0}],"version":1}\n'
ANSWERED = '{"events":[{"invoke":["get",5],"process":0},{"answer":null,"process":0}],"version":1}\n'

# Arguments of `drive`, a plan and what is recorded. A get that stops at its limit is pending. Under optimistic lock coupling it reads the
# root's version, the child word and the version again, and stamps its response. Under lock coupling it locks the root, reads the child
# word, unlocks the root, and stamps. The map under a lock has no limit. A tree that has only its root refuses a key that differs from
# another one only after the first byte.
LIMITED = [
    ("--limit 3", GET_PLAN, PENDING),
    ("--limit 4", GET_PLAN, ANSWERED),
    ("--tree optimistic --limit 3", GET_PLAN, PENDING),
    ("--tree optimistic --limit 4", GET_PLAN, ANSWERED),
    ("--tree coupled --limit 4", GET_PLAN, PENDING),
    ("--limit 5 --tree coupled", GET_PLAN, ANSWERED),
    ("--tree locked --limit 1", GET_PLAN, ANSWERED),
    ("--limit=1", INSERT_THEN_GET_PLAN, '{"events":[{"invoke":["insert",5,7],"process":0}],"version":1}\n'),
    # The second call is not begun once the first has stopped, and a process with an empty script has no events.
    (
        "--limit 3", '{"scripts":[[],[["get",5],["insert",5,7]]],"version":1}',
        '{"events":[{"invoke":["get",5],"process":1}],"version":1}\n',
    ),
    (
        "--rows4 0 --rows16 0 --rows48 0 --rows256 1", '{"scripts":[[["insert",5,7],["insert",6,8]]],"version":1}',
        '{"events":[{"invoke":["insert",5,7],"process":0},{"answer":null,"process":0},'
        '{"invoke":["insert",6,8],"process":0},{"answer":"refused","process":0}],"version":1}\n',
    ),
    (
        "--limit 1 --rows256 64 --tree locked --rows48 256 --rows16 0 --rows4 4096", INSERT_THEN_GET_PLAN,
        '{"events":[{"invoke":["insert",5,7],"process":0},{"answer":null,"process":0},'
        '{"invoke":["get",5],"process":0},{"answer":7,"process":0}],"version":1}\n',
    ),
]

# Texts of plans of another form.
NO_PLANS = [
    "[]",
    "{}",
    '{"scripts":[[]]}',
    '{"version":1}',
    '{"scripts":[[]],"version":3}',
    '{"scripts":[],"version":3}',
    '{"scripts":[[]],"version":"1"}',
    '{"more":0,"scripts":[[]],"version":1}',
    '{"scripts":[],"version":1,"x":0}',
    '{"scripts":{},"version":1}',
    '{"scripts":[0],"version":1}',
    '{"scripts":[[["get"]]],"version":1}',
    '{"scripts":[[["replace",5,1,2]]],"version":1}',
    '{"scripts":[[["get",4294967296]]],"version":1}',
    '{"scripts":[[["insert",5,1073741824]]],"version":1}',
    '{"scripts":[[["scan",2,1]]],"version":1}',
    '{"scripts":[[["scan",0,4294967296]]],"version":1}',
    '{"scripts":[[["replace",5,1073741824,0]]],"version":2}',
    '{"scripts":[[["replace",5,0,1073741824]]],"version":2}',
    '{"scripts":[[["put",5]]],"version":1}',
    '{"scripts":[[["get",-5]]],"version":1}',
]

# How many gets each script of a plan has, and whether it may be done: the number of scripts times the longest is at most 4,096.
LENGTHS = [
    ([4096], True),
    ([2048, 0], True),
    ([2048, 2048], True),
    ([64] * 64, True),
    ([], False),
    ([0] * 65, False),
    ([2049, 1], False),
    ([2049, 0], False),
    ([4096, 0], False),
    ([0, 4096], False),
    ([4097], False),
    ([4097, 0], False),
    ([1, 1366, 2], False),
]

MIX = "--get 40 --insert 30 --remove 20 --scan 10 --lo 0 --hi 20"

# The members of a replay: its limit, its rows, its schedule, its scripts, and what comes after them.
LEAST = "[0,0,0,1]"
ONE = '"variant":"coupled","version":1'
REPLAYS_OF_ANOTHER_FORM = [
    ("0", LEAST, "[]", "[[]]", ONE),
    ("1000001", LEAST, "[]", "[[]]", ONE),
    ("-1", LEAST, "[]", "[[]]", ONE),
    ('"1"', LEAST, "[]", "[[]]", ONE),
    ("1", "[4097,0,0,1]", "[]", "[[]]", ONE),
    ("1", "[0,1025,0,1]", "[]", "[[]]", ONE),
    ("1", "[0,0,257,1]", "[]", "[[]]", ONE),
    ("1", "[0,0,0,0]", "[]", "[[]]", ONE),
    ("1", "[0,0,0,65]", "[]", "[[]]", ONE),
    ("1", "[0,0,1]", "[]", "[[]]", ONE),
    ("1", "[0,0,0,1,0]", "[]", "[[]]", ONE),
    ("1", "{}", "[]", "[[]]", ONE),
    ("1", LEAST, '[[0,"turns",0]]', "[[]]", ONE),
    ("1", LEAST, '[[0,"turns",1000001]]', "[[]]", ONE),
    ("1", LEAST, '[[0,"turns"]]', "[[]]", ONE),
    ("1", LEAST, '[[0,"end",1]]', "[[]]", ONE),
    ("1", LEAST, '[[0,"until","root"]]', "[[]]", ONE),
    ("1", LEAST, '[[0,"until"]]', "[[]]", ONE),
    ("1", LEAST, '[[-1,"end"]]', "[[]]", ONE),
    ("1", LEAST, '[["0","end"]]', "[[]]", ONE),
    ("1", LEAST, "[[0]]", "[[]]", ONE),
    ("1", LEAST, "{}", "[[]]", ONE),
    ("1", LEAST, "[]", "[]", ONE),
    ("1", LEAST, "[]", "{}", ONE),
    ("1", LEAST, "[]", '[[["replace",5,1,2]]]', ONE),
    ("1", LEAST, "[]", '[[["get",4294967296]]]', ONE),
    ("1", LEAST, "[]", "[[]]", '"variant":"coupled"'),
    ("1", LEAST, "[]", "[[]]", '"version":1'),
    ("1", LEAST, "[]", "[[]]", '"variant":"locked","version":1'),
    ("1", LEAST, "[]", "[[]]", '"variant":"coupled","version":3'),
    ("1", LEAST, "[]", "[[]]", '"more":0,"variant":"coupled","version":1'),
    ("1", LEAST, "[]", "[[]]", '"start":[[5,7],[5,8]],"variant":"coupled","version":2'),
    ("1", LEAST, "[]", "[[]]", '"start":[[5,7],[4,8]],"variant":"coupled","version":2'),
    ("1", LEAST, "[]", "[[]]", '"start":[[4294967296,7]],"variant":"coupled","version":2'),
    ("1", LEAST, "[]", "[[]]", '"start":[[5,1073741824]],"variant":"coupled","version":2'),
    ("1", LEAST, "[]", "[[]]", '"start":[[5]],"variant":"coupled","version":2'),
    ("1", LEAST, "[]", "[[]]", '"start":0,"variant":"coupled","version":2'),
    ("1", LEAST, "[]", "[[]]", '"start":[],"variant":"coupled","version":1'),
    ("1", LEAST, "[]", "[[]]", '"variant":"coupled","version":2'),
]

# The same of replays that are read: their output, or their fault. As many items, scripts and calls with starting pairs as there may be, and
# one more; and a process of any number, which is refused when the item runs.
GETS = "[[" + ",".join(['["get",7]'] * 4095) + "]]"
SCRIPTS = ["[" + ",".join(["[]"] * count) + "]" for count in (64, 65)]
ENDS = ["[" + ",".join(['[0,"end"]'] * count) + "]" for count in (100_000, 100_001)]
OTHER_REPLAYS = [
    (("1", "[4096,1024,256,64]", "[]", "[[]]", ONE), EMPTY, ""),
    (("1000000", "[4096,1024,256,64]", "[]", "[[]]", ONE), EMPTY, ""),
    *((("1", LEAST, "[]", "[[]]", f'"version":1,"variant":"{tree}"'), EMPTY, "") for tree in TREES),
    (("1", LEAST, "[]", "[[]]", '"start":[],"variant":"coupled","version":2'), EMPTY, ""),
    (("1", LEAST, ENDS[0], SCRIPTS[0], ONE), "", "schedule: item 0: " + NOTHING_TO_DO),
    (("1", LEAST, ENDS[1], SCRIPTS[0], ONE), "", NO_REPLAY),
    (("1", LEAST, "[]", SCRIPTS[1], ONE), "", NO_REPLAY),
    (
        ("1", LEAST, "[]", GETS, '"start":[[5,7]],"variant":"coupled","version":2'),
        '{"events":[],"start":[[5,7]],"version":2}\n', "",
    ),
    (("1", LEAST, "[]", GETS, '"start":[[5,7],[6,8]],"variant":"coupled","version":2'), "", NO_REPLAY),
    (
        ("1000", "[8,16,0,1]", '[[0,"end"],[1,"until","child"],[18446744073709551615,"turns",1000000]]',
         '[[["insert",5,50]],[["get",5],["scan",0,4294967295]]]', '"version":1,"variant":"read-unchecked"'),
        "", "schedule: item 2: " + NO_PROCESS,
    ),
    # The greatest and least keys and values at the start, and a replace in a script.
    (
        ("1", "[0,0,0,64]", "[]", '[[["replace",5,1,2]]]',
         '"start":[[0,1073741823],[4294967295,0]],"variant":"early-release","version":2'),
        '{"events":[],"start":[[0,1073741823],[4294967295,0]],"version":2}\n', "",
    ),
    # The inserts at the start take no turns: under lock coupling seven are enough for a get below the root alone.
    *(
        (
            (limit, LEAST, '[[0,"end"]]', '[[["get",5]],[]]', f'"start":[[5,50]],"variant":"{tree}","version":2'),
            '{"events":[{"invoke":["get",5],"process":0},{"answer":50,"process":0}],"start":[[5,50]],"version":2}\n', "",
        )
        for tree, limit in (("coupled", "7"), *((tree, "1000") for tree in TREES[1:]))
    ),
    # Three keys at the start that are in two rows.
    (
        ("1000", "[8,0,0,1]", '[[0,"end"]]', '[[["scan",0,4294967295]],[]]',
         '"start":[[16777217,1],[16777218,2],[16842752,3]],"variant":"coupled","version":2'),
        '{"events":[{"invoke":["scan",0,4294967295],"process":0},'
        '{"answer":[[16777217,1],[16777218,2],[16842752,3]],"process":0}],'
        '"start":[[16777217,1],[16777218,2],[16842752,3]],"version":2}\n', "",
    ),
    *(
        (("1000", LEAST, "[]", "[[],[]]", f'"start":[[5,50],[9,90]],"variant":"{tree}","version":2'),
         "", "replay: 8 StartRefused\nwanted rows that have room for the starting pairs\n")
        for tree in TREES
    ),
]

# Two scripts, a schedule, and by variant the last answer of a history, between what comes before and after it, and the report on it.
SCHEDULES = [
    # A get has read the key bytes when an insert shifts the children.
    (
        [], [["insert", 5, 50], ["insert", 9, 90], ["get", 5]], [["insert", 3, 30]],
        '[[0,"end"],[0,"end"],[0,"until","child"],[1,"end"],[0,"end"]]',
        '0 ["insert",5,50], 0 null, 0 ["insert",9,90], 0 null, 0 ["get",5], 1 ["insert",3,30], 1 null, 0 ANSWER',
        [
            ("read-unchecked", "null", '{"calls":[0,2],"hi":5,"lo":5,"verdict":"no"}'),
            ("optimistic", "50", '{"order":[0,1,2,3],"verdict":"yes"}'),
        ],
    ),
    # An insert has read the root when another one hangs its leaf there.
    (
        [], [["insert", 5, 50]], [["insert", 9, 90], ["get", 9]],
        '[[0,"until","lock-root"],[1,"end"],[0,"end"],[1,"end"]]',
        '0 ["insert",5,50], 1 ["insert",9,90], 1 null, 0 null, 1 ["get",9], 1 ANSWER',
        [
            ("lock-unchecked", "null", '{"calls":[1,2],"hi":9,"lo":9,"verdict":"no"}'),
            ("optimistic", "90", '{"order":[0,1,2],"verdict":"yes"}'),
        ],
    ),
    # A scan has read the root's first slot when two inserts come, the second of them after it.
    (
        [], [["scan", 16777216, 33554432]], [["insert", 16777216, 1], ["insert", 33554432, 2]],
        '[[0,"turns",3],[1,"end"],[1,"end"],[0,"end"]]',
        '0 ["scan",16777216,33554432], 1 ["insert",16777216,1], 1 null, 1 ["insert",33554432,2], 1 null, 0 ANSWER',
        [
            ("scan-unvalidated", "[[33554432,2]]", '{"calls":[0,1,2],"hi":33554432,"lo":16777216,"verdict":"no"}'),
            ("optimistic", "[[16777216,1],[33554432,2]]", '{"order":[1,2,0],"verdict":"yes"}'),
        ],
    ),
    # A remove is about to lock a row when the row is replaced: it answers the value, and the key stays.
    (
        [], [["remove", 1]], [["insert", 1, 10], ["insert", 2, 20], ["insert", 3, 30], ["insert", 4, 40], ["insert", 5, 50], ["get", 1]],
        '[[1,"end"],[1,"end"],[1,"end"],[1,"end"],[0,"until","lock-row"],[1,"end"],[0,"end"],[1,"end"]]',
        '1 ["insert",1,10], 1 null, 1 ["insert",2,20], 1 null, 1 ["insert",3,30], 1 null, 1 ["insert",4,40], 1 null, 0 ["remove",1], '
        '1 ["insert",5,50], 1 null, 0 10, 1 ["get",1], 1 ANSWER',
        [("early-release", "10", '{"calls":[0,4,6],"hi":1,"lo":1,"verdict":"no"}')],
    ),
    # A replace has found its value when another one replaces it: without a check both have done so.
    (
        [[5, 1]], [["replace", 5, 1, 2]], [["replace", 5, 1, 3]],
        '[[0,"until","lock-root"],[1,"end"],[0,"end"]]',
        '0 ["replace",5,1,2], 1 ["replace",5,1,3], 1 1, 0 ANSWER',
        [
            ("lock-unchecked", "1", '{"calls":[0,1],"hi":5,"lo":5,"verdict":"no"}'),
            ("optimistic", "3", '{"order":[1,0],"verdict":"yes"}'),
        ],
    ),
]

# Rows, a variant, and calls one after another with what they are answered.
SERIAL = [
    # Three keys with two bytes in common, then one.
    (
        "[8,0,0,1]", "coupled",
        ['"insert",16777217,1', '"insert",16777218,2', '"insert",16842752,3', '"scan",0,4294967295', '"scan",16777218,16842751'],
        ["null", "null", "null", "[[16777217,1],[16777218,2],[16842752,3]]", "[[16777218,2]]"],
    ),
    # A row of kind 4 is full, and there is no row of kind 16.
    (
        "[8,0,0,1]", "coupled",
        ['"insert",1,10', '"insert",2,20', '"insert",3,30', '"insert",4,40', '"insert",5,50', '"get",5', '"remove",2'],
        ["null", "null", "null", "null", '"refused"', "null", "20"],
    ),
    # There is no row of kind 4, so the second key has no place.
    ("[0,0,0,1]", "coupled", ['"insert",5,50', '"insert",9,90', '"get",9', '"get",5'], ["null", '"refused"', "null", "50"]),
    # The greatest key and value that a tree holds.
    (
        "[0,0,0,1]", "optimistic",
        ['"insert",4294967295,1073741823', '"scan",0,4294967295'], ["null", "[[4294967295,1073741823]]"],
    ),
    # One row of each kind: it grows from 4 to 16 to 48 children, and there the inserts end.
    (
        "[1,1,1,1]", "optimistic",
        [*(f'"insert",{key},1' for key in range(49)), '"get",47'], [*["null"] * 48, '"refused"', "1"],
    ),
]

# Under lock coupling, a get in a tree with only its root takes an invocation, five steps of the tree and a response, since the root has no key bytes
# to look at. So the first item ends with the response, and the next one begins the next call. Items, and what is recorded of two gets.
ITEMS = [
    ('[0,"until","child"]', '0 ["get",5], 0 null'),
    ('[0,"until","child"],[0,"until","answer"],[0,"until","answer"]', '0 ["get",5], 0 null, 0 ["get",6]'),
    ('[0,"until","child"],[0,"until","answer"],[0,"until","answer"],[0,"turns",1]', '0 ["get",5], 0 null, 0 ["get",6], 0 null'),
]

# A get of process 0 stops permanently after so many turns, from the first number on and below the second, and then process 1 inserts. The get
# takes eleven turns without locks. Under lock coupling it takes twelve. The third locks the root, the sixth the row below it, and the eleventh
# unlocks that row: in between the insert waits. What is recorded after the two inserts before, and the order.
STOPPED = [
    ("optimistic", 0, 1, '1 ["insert",3,30], 1 null', "[0,1,2]"),
    ("optimistic", 1, 11, '0 ["get",5], 1 ["insert",3,30], 1 null', "[0,1,3]"),
    ("optimistic", 11, 12, '0 ["get",5], 0 50, 1 ["insert",3,30], 1 null', "[0,1,2,3]"),
    ("coupled", 0, 1, '1 ["insert",3,30], 1 null', "[0,1,2]"),
    ("coupled", 1, 3, '0 ["get",5], 1 ["insert",3,30], 1 null', "[0,1,3]"),
    ("coupled", 3, 11, '0 ["get",5], 1 ["insert",3,30]', "[0,1]"),
    ("coupled", 11, 12, '0 ["get",5], 1 ["insert",3,30], 1 null', "[0,1,3]"),
    ("coupled", 12, 13, '0 ["get",5], 0 50, 1 ["insert",3,30], 1 null', "[0,1,2,3]"),
]
BEFORE_THE_STOP = '0 ["insert",5,50], 0 null, 0 ["insert",9,90], 0 null, '


def drawing(seed, numbers):
    names = ("processes", "calls", "get", "insert", "remove", "scan", "lo", "hi")
    options = " ".join(f"--{name} {number}" for name, number in zip(names, numbers))
    return f"generate --seed {seed} {options}".split()


def gets_plan(lengths):
    """A plan with a script of so many gets for each number."""
    scripts = ",".join("[" + ",".join(['["get",5]'] * length) + "]" for length in lengths)
    return f'{{"scripts":[{scripts}],"version":1}}'


def replay(members):
    limit, rows, schedule, scripts, rest = members
    return f'{{"limit":{limit},"rows":{rows},"schedule":{schedule},"scripts":{scripts},{rest}}}'


def recorded(events, start):
    """The text of a history, of words for its events: each a process, and the call that it begins or what it is answered."""
    parts = []
    for word in events.split(", "):
        process, what = word.split(" ", 1)
        kind = "invoke" if what.startswith('["') else "answer"
        parts.append(f'{{"{kind}":{what},"process":{process}}}')
    is_second = start or '"replace"' in events
    behind = f'"start":{json.dumps(start, separators=(",", ":"))},"version":2' if is_second else '"version":1'
    return f'{{"events":[{",".join(parts)}],{behind}}}\n'


def in_turn(steps):
    """The plan of some calls of one process, and what is recorded of them."""
    calls = ",".join(f"[{call}]" for call, _ in steps)
    version = 2 if "replace" in calls else 1
    return f'{{"scripts":[[{calls}]],"version":{version}}}', recorded(", ".join(f"0 [{call}], 0 {told}" for call, told in steps), [])


def scheduled(start, scripts, schedule, variant, limit=1000):
    """A replay of two scripts on eight rows of each kind below the root."""
    rest = f'"start":{json.dumps(start)},"variant":"{variant}","version":2' if start else f'"variant":"{variant}","version":1'
    return replay((limit, "[8,8,8,1]", schedule, json.dumps(scripts), rest))


def schedules():
    """Replays of two processes, with what is recorded and the report on it."""
    for start, first, second, schedule, events, variants in SCHEDULES:
        for variant, last, report in variants:
            yield scheduled(start, [first, second], schedule, variant), recorded(events.replace("ANSWER", last), start), report
    scripts = [[["insert", 5, 50], ["insert", 9, 90], ["get", 5]], [["insert", 3, 30]]]
    for variant, least, end, events, order in STOPPED:
        # An insert that waits is still open after as many turns as were far too many else.
        ends = '[1,"end"]' if events.endswith("null") else '[1,"turns",900]'
        for turns in range(least, end):
            stops = f'[0,"turns",{turns}],' if turns else ""
            text = scheduled([], scripts, f'[[0,"end"],[0,"end"],{stops}{ends}]', variant, 2000)
            yield text, recorded(BEFORE_THE_STOP + events, []), f'{{"order":{order},"verdict":"yes"}}'


def refused_schedules():
    """Replays that stop at an item, each with the fault."""
    start, first, second, schedule = SCHEDULES[3][:4]
    # Under full coupling the remove holds the row above, so the insert that would replace the row waits until no turn is left.
    yield scheduled(start, [first, second], schedule, "coupled"), "schedule: item 5: " + TURN_LIMIT
    text = scheduled([], [[["get", 5], ["get", 6]], []], '[[0,"until","child"],[0,"end"],[0,"until","answer"]]', "coupled")
    yield text, "schedule: item 2: " + NOTHING_TO_DO
    # A process is wanted first, then something to do, then a turn, whatever the item is.
    scripts = [[["get", 5]], []]
    for limit, front, item in ((2, "", 0), (2, '[0,"turns",2],', 1)):
        for process, fault in ((3, NO_PROCESS), (2, NO_PROCESS), (1, NOTHING_TO_DO), (0, TURN_LIMIT)):
            for rest in ('"turns",1', '"end"', '"until","child"'):
                if process > 0 or item > 0:
                    text = scheduled([], scripts, f"[{front}[{process},{rest}]]", "coupled", limit)
                    yield text, f"schedule: item {item}: {fault}"
    yield scheduled([], scripts, '[[0,"turns",3]]', "coupled", 2), "schedule: item 0: " + TURN_LIMIT
    scripts = [[["insert", 5, 50], ["insert", 9, 90], ["get", 5]], [["insert", 3, 30]]]
    for turns in range(3, 11):
        text = scheduled([], scripts, f'[[0,"end"],[0,"end"],[0,"turns",{turns}],[1,"end"]]', "coupled")
        yield text, "schedule: item 3: " + TURN_LIMIT


def long_plans():
    """Plans of one process at a map under a lock, with what is recorded: 4,096 inserts, the longest scan, and many long ones."""
    listed = [["insert", key, 1] for key in range(MOST_CALLS)]
    yield listed, history(inserts(MOST_CALLS))
    yield [*listed[:4095], ["scan", 0, 9000]], history(scans_of_inserts(4095, 1))
    yield [*listed[:3996], *[["scan", 0, 9000]] * 100], history(scans_of_inserts(3996, 100))


def rows():
    """Words, a text, and the status, standard output and what a terminal shows that are wanted."""
    for numbers, scripts in DRAWN:
        yield drawing(42, numbers), "", 0, f'{{"scripts":{scripts},"version":1}}\n', ""
    for numbers, fault in UNDRAWN:
        yield drawing(42, numbers), "{}", 3, "", fault
    yield drawing(18446744073709551615, UNDRAWN[5][0]), "{}", 3, "", BAD_MIX
    # The options in another order, and the greatest seed.
    words = "generate --hi 7 --lo 7 --scan 0 --remove 0 --insert 100 --get 0 --calls 1 --processes 2 --seed 42"
    yield words.split(), "", 0, '{"scripts":[[["insert",7,357083581]],[["insert",7,418225680]]],"version":1}\n', ""
    yield drawing(18446744073709551615, (1, 2, 100, 0, 0, 0, 5, 5)), "", 0, '{"scripts":[[["get",5],["get",5]]],"version":1}\n', ""
    for text, written in (*DONE, *map(in_turn, IN_TURN)):
        for words in (["drive"], *(["drive", "--tree", tree] for tree in ("locked", *TREES))):
            yield words, text, 0, written, ""
    for words, text, written in LIMITED:
        yield ["drive", *words.split()], text, 0, written, ""
    for script, written in long_plans():
        yield ["drive", "--tree", "locked"], json.dumps({"scripts": [script], "version": 1}), 0, written + "\n", ""
    for text in NO_PLANS:
        yield ["drive"], text, 3, "", NO_PLAN
    for text in ("", '{"scripts":[],"version":1', gets_plan([0] * 65) + " ]", " " * LONGEST_TEXT):
        yield ["drive"], text, 3, "", "plan: 6 NotJson\n" + JSON
    yield ["drive"], " " * (LONGEST_TEXT + 1), 3, "", "plan: 5 TooLong\n" + LENGTH
    for lengths, may_be_done in LENGTHS:
        if not may_be_done:
            for tree in ("locked", "optimistic"):
                yield ["drive", "--tree", tree, "--limit", "1"], gets_plan(lengths), 3, "", TOO_MANY_CALLS
    for members in REPLAYS_OF_ANOTHER_FORM:
        yield ["replay"], replay(members), 3, "", NO_REPLAY
    yield ["replay"], "[]", 3, "", NO_REPLAY
    for text in ("{", " " * LONGEST_TEXT):
        yield ["replay"], text, 3, "", "replay: 6 NotJson\n" + JSON
    yield ["replay"], " " * (LONGEST_TEXT + 1), 3, "", "replay: 5 TooLong\n" + LENGTH
    for members, output, fault in OTHER_REPLAYS:
        yield ["replay"], replay(members), 3 if fault else 0, output, fault
    for text, output, report in schedules():
        yield ["replay"], text, 0, output, ""
        yield ["judge", "--budget", "1000"], output, int('"no"' in report), report + "\n", ""
    for text, fault in refused_schedules():
        yield ["replay"], text, 3, "", fault
    for rows_of_kinds, variant, calls, answers in SERIAL:
        script, items = ",".join(f"[{call}]" for call in calls), ",".join(['[0,"end"]'] * len(calls))
        text = replay((100_000, rows_of_kinds, f"[{items}]", f"[[{script}]]", f'"variant":"{variant}","version":1'))
        yield ["replay"], text, 0, recorded(", ".join(f"0 [{call}], 0 {told}" for call, told in zip(calls, answers)), []), ""
    for items, events in ITEMS:
        yield ["replay"], scheduled([], [[["get", 5], ["get", 6]], []], f"[{items}]", "coupled"), 0, recorded(events, []), ""
    # As many starting pairs as there may be beside one call, and as many processes.
    pairs, idle = pairs_listed(4095), ",[]" * 63
    rest = f'"start":[{pairs}],"variant":"optimistic","version":2'
    text = replay((1_000_000, "[64,32,32,32]", '[[0,"end"]]', f'[[["scan",0,4094]]{idle}]', rest))
    scan = f'{{"invoke":["scan",0,4094],"process":0}},{{"answer":[{pairs}],"process":0}}'
    yield ["replay"], text, 0, f'{{"events":[{scan}],"start":[{pairs}],"version":2}}\n', ""


def drawn(numbers, script):
    """What is wrong with the script of process 54 of a plan that is drawn."""
    status, output, told = answer(drawing(42, numbers))
    scripts = json.loads(output)["scripts"]
    if status or told or scripts[54:] != [script] or any(len(other) != len(script) for other in scripts):
        return f"{status} {output} {told}, and wanted is the script {script} of process 54"
    return None


def done(lengths, tree):
    """What is wrong with the history of a plan of gets, all of which are answered."""
    status, output, told = answer(["drive", "--tree", tree], gets_plan(lengths))
    if status or told or len(json.loads(output)["events"]) != 2 * sum(lengths):
        return f"{status} {output[:300]} {told} of {lengths} gets at the {tree} tree"
    return None


def ordered(seed, calls, mix, tree):
    """What is wrong with what four processes do at a tree that has to be linearizable."""
    words = f"generate --seed {seed} --processes 4 --calls {calls} {mix}".split()
    status, output, told = piped(words, ["drive", "--tree", tree], ["judge", "--budget", "1000000", "--workers", "4"])
    # A call at a tree may have stopped at its limit.
    few = tree == "locked" and len(json.loads(output)["order"]) != 4 * calls
    if status or told or not output.endswith(b'"verdict":"yes"}\n') or few:
        return f"{status} {output[:300]} {told} of plan {seed} of {calls} calls at the {tree} tree"
    return None


def ended(seed, tree):
    """What is wrong with a drive on a tree that skips a rule: what it does may be wrong, and a call may never end, but for its limit."""
    words = f"generate --seed {seed} --processes 4 --calls 25 {MIX}".split()
    status, output, told = piped(words, ["drive", "--tree", tree, "--limit", "10000"])
    calls = output.count(b'"invoke"')
    if status or told or not 4 <= calls <= 100:
        return f"{status} {output[:300]} {told} of plan {seed} at the {tree} tree"
    return None


def main():
    others = [functools.partial(drawn, *row) for row in KNOWN_WORDS]
    others += [functools.partial(done, lengths, tree) for lengths, may in LENGTHS if may for tree in ("locked", "optimistic")]
    # On few keys and on many.
    mixes = ["--get 40 --insert 40 --remove 20 --scan 0 --lo 0 --hi " + greatest for greatest in ("9", "99", "999")]
    others += [functools.partial(ordered, 7, 1000, mix, "locked") for mix in mixes]
    others += [functools.partial(ordered, 1, 1000, MIX, "locked")]
    plans = [*((seed, 25) for seed in range(100)), *((seed, 50) for seed in range(1, 21))]
    others += [functools.partial(ordered, *plan, MIX, tree) for plan in plans for tree in ("coupled", "optimistic")]
    others += [functools.partial(ended, seed, tree) for seed in range(100) for tree in TREES[2:]]
    # A plan of as many calls as there may be is drawn.
    others += [lambda: None if answer(drawing(0, (64, 64, 100, 0, 0, 0, 5, 5)))[0] == 0 else "no plan of 64 scripts of 64 calls"]
    return compare(rows(), others)


if __name__ == "__main__":
    sys.exit(main())
