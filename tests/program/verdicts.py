#!/usr/bin/env python3
"""Runs the program on histories and on streams of events: orders, verdicts, locations, explanations, and what is followed.

    tests/program/verdicts.py

What is expected was worked out by hand. Of each history the place where it goes wrong is also sought by a verdict on each of its
first parts. The last line counts what passed and failed.
"""

import functools
import json
import random
import subprocess
import sys

sys.dont_write_bytecode = True
from rows import (  # noqa: E402
    APART, LONG, MOST_CALLS, PROGRAM, answer, compare, gets, history, numbers, pairs_listed, report_of, scans_of_inserts, started, stream,
)

STATUSES = {"yes": 0, "no": 1, "undecided": 2}

# The events of small histories.
NO_EVENTS = ""
INSERT_THEN_GET = """
    {"invoke":["insert",5,7],"process":0}, {"answer":null,"process":0},
    {"invoke":["get",5],"process":0}, {"answer":7,"process":0}"""
GET_MISSES_ANSWERED_INSERT = """
    {"invoke":["insert",5,7],"process":0}, {"answer":null,"process":0},
    {"invoke":["get",5],"process":1}, {"answer":null,"process":1}"""
GET_SEES_ANSWERED_INSERT = """
    {"invoke":["insert",5,7],"process":0}, {"answer":null,"process":0},
    {"invoke":["get",5],"process":1}, {"answer":7,"process":1}"""
GET_MISSES_OPEN_INSERT = """
    {"invoke":["insert",5,7],"process":0},
    {"invoke":["get",5],"process":1}, {"answer":null,"process":1},
    {"answer":null,"process":0}"""
GET_SEES_PENDING_INSERT = """
    {"invoke":["insert",5,7],"process":0},
    {"invoke":["get",5],"process":1}, {"answer":7,"process":1}"""
GET_MISSES_PENDING_INSERT = """
    {"invoke":["insert",5,7],"process":0},
    {"invoke":["get",5],"process":1}, {"answer":null,"process":1}"""
LATER_GET_MISSES_WHAT_WAS_SEEN = """
    {"invoke":["insert",5,7],"process":0},
    {"invoke":["get",5],"process":1}, {"answer":7,"process":1},
    {"invoke":["get",5],"process":1}, {"answer":null,"process":1}"""
SCAN_MISSES_THE_FIRST_OF_TWO_INSERTS = """
    {"invoke":["scan",1,2],"process":2},
    {"invoke":["insert",1,10],"process":0}, {"answer":null,"process":0},
    {"invoke":["insert",2,20],"process":0}, {"answer":null,"process":0},
    {"answer":[[2,20]],"process":2}"""
SCANS_SEE_TWO_INSERTS_IN_DIFFERENT_ORDER = """
    {"invoke":["insert",1,10],"process":0}, {"invoke":["insert",2,20],"process":1},
    {"invoke":["scan",1,2],"process":2}, {"invoke":["scan",1,2],"process":3},
    {"answer":null,"process":0}, {"answer":null,"process":1},
    {"answer":[[1,10]],"process":2}, {"answer":[[2,20]],"process":3}"""
TWO_KEYS = """
    {"invoke":["insert",1,10],"process":0}, {"invoke":["get",1],"process":1},
    {"invoke":["insert",9,90],"process":2}, {"answer":null,"process":2},
    {"answer":null,"process":1}, {"answer":null,"process":0}"""
TWO_KEYS_AND_A_PENDING_SCAN = """
    {"invoke":["insert",1,10],"process":0}, {"invoke":["get",1],"process":1},
    {"invoke":["insert",9,90],"process":2}, {"answer":null,"process":2},
    {"answer":null,"process":1}, {"answer":null,"process":0},
    {"invoke":["scan",0,100],"process":1}"""
GET_SEES_WHAT_NOBODY_INSERTED = """
    {"invoke":["insert",5,7],"process":0},
    {"invoke":["get",5],"process":1}, {"answer":null,"process":1},
    {"answer":null,"process":0},
    {"invoke":["get",9],"process":2}, {"answer":1,"process":2}"""
SCAN_OF_ALL_KEYS = """
    {"invoke":["insert",0,1],"process":0}, {"answer":null,"process":0},
    {"invoke":["insert",18446744073709551615,2],"process":0}, {"answer":null,"process":0},
    {"invoke":["scan",0,18446744073709551615],"process":0},
    {"answer":[[0,1],[18446744073709551615,2]],"process":0}"""
SCAN_LISTS_KEYS_THAT_FALL = """
    {"invoke":["insert",0,1],"process":0}, {"answer":null,"process":0},
    {"invoke":["insert",18446744073709551615,2],"process":0}, {"answer":null,"process":0},
    {"invoke":["scan",0,18446744073709551615],"process":0},
    {"answer":[[18446744073709551615,2],[0,1]],"process":0}"""
GET_MISSES_REFUSED_INSERT = """
    {"invoke":["insert",5,7],"process":0}, {"answer":"refused","process":0},
    {"invoke":["get",5],"process":0}, {"answer":null,"process":0}"""
GET_SEES_REFUSED_INSERT = """
    {"invoke":["insert",5,7],"process":0}, {"answer":"refused","process":0},
    {"invoke":["get",5],"process":0}, {"answer":7,"process":0}"""
GET_IS_ANSWERED_BY_A_LIST = """
    {"invoke":["get",5],"process":0}, {"answer":[],"process":0}"""
TWO_KEYS_BY_FALLING_KEY = """
    {"invoke":["insert",9,90],"process":0}, {"answer":null,"process":0},
    {"invoke":["insert",1,10],"process":0}, {"answer":null,"process":0}"""
# The insert that is invoked first takes effect last, after a get that follows the insert at another key.
EFFECT_LATER_THAN_THE_INVOCATION = """
    {"invoke":["insert",1,10],"process":0}, {"invoke":["insert",9,90],"process":1},
    {"answer":null,"process":1}, {"invoke":["get",1],"process":1},
    {"answer":null,"process":1}, {"answer":null,"process":0}"""
TWO_GETS_SEE_WHAT_NOBODY_INSERTED = """
    {"invoke":["get",9],"process":0}, {"answer":1,"process":0},
    {"invoke":["get",1],"process":0}, {"answer":1,"process":0}"""
INSERT_BESIDE_A_SCAN_IS_ANSWERED_FALSELY = """
    {"invoke":["scan",1,2],"process":0}, {"answer":[],"process":0},
    {"invoke":["insert",3,30],"process":0}, {"answer":5,"process":0}"""
REFUSED_SCAN_TIES_KEYS = """
    {"invoke":["insert",1,10],"process":0}, {"answer":null,"process":0},
    {"invoke":["scan",1,2],"process":0}, {"answer":"refused","process":0},
    {"invoke":["get",2],"process":0}, {"answer":5,"process":0}"""
PENDING_GET_AND_SCAN = """
    {"invoke":["get",5],"process":0}, {"invoke":["scan",0,9],"process":1}"""
PENDING_INSERT = '{"invoke":["insert",5,7],"process":0}'
PENDING_REMOVE = '{"invoke":["remove",5],"process":0}'
ONE_INSERT = '{"invoke":["insert",5,7],"process":0}, {"answer":null,"process":0}'
# The inserts come at the ends of the keys, and the pair at the lower end is removed after the scan.
SCAN_BEFORE_A_REMOVE = """
    {"invoke":["insert",18446744073709551615,2],"process":0}, {"answer":null,"process":0},
    {"invoke":["insert",0,1],"process":0}, {"answer":null,"process":0},
    {"invoke":["scan",0,18446744073709551615],"process":0},
    {"answer":[[0,1],[18446744073709551615,2]],"process":0},
    {"invoke":["remove",0],"process":1}, {"answer":1,"process":1},
    {"invoke":["get",0],"process":1}, {"answer":null,"process":1}"""
# A get that the insert beside it answers, until the insert is refused; and the same, where the get misses the insert.
SEEN_INSERT_IS_REFUSED = """
    {"invoke":["insert",5,7],"process":0}, {"invoke":["get",5],"process":1},
    {"answer":7,"process":1}, {"answer":"refused","process":0}"""
MISSED_INSERT_IS_REFUSED = """
    {"invoke":["insert",5,7],"process":0}, {"invoke":["get",5],"process":1},
    {"answer":null,"process":1}, {"answer":"refused","process":0}"""
# The get in the middle sees what nobody inserted, whatever is answered and invoked after it.
FALSE_GET_BEFORE_OTHERS = """
    {"invoke":["insert",5,7],"process":0}, {"answer":null,"process":0},
    {"invoke":["get",9],"process":0}, {"answer":1,"process":0},
    {"invoke":["get",9],"process":0}, {"answer":null,"process":0},
    {"invoke":["get",9],"process":0}"""
# The get sees the third of five open inserts, of which others are taken first or not at all.
GET_SEES_THE_THIRD_OF_FIVE_OPEN_INSERTS = """
    {"invoke":["insert",5,10],"process":0}, {"invoke":["insert",5,20],"process":1},
    {"invoke":["insert",5,30],"process":2}, {"invoke":["insert",5,40],"process":3},
    {"invoke":["insert",5,50],"process":4},
    {"invoke":["get",5],"process":5}, {"answer":30,"process":5}"""
# The gets see an open insert, another one, and the first again.
GETS_SEE_AN_OPEN_INSERT_AGAIN = """
    {"invoke":["insert",5,10],"process":0}, {"invoke":["insert",5,20],"process":1},
    {"invoke":["insert",5,30],"process":2},
    {"invoke":["get",5],"process":3}, {"answer":10,"process":3},
    {"invoke":["get",5],"process":3}, {"answer":20,"process":3},
    {"invoke":["get",5],"process":3}, {"answer":10,"process":3}"""
# The pending remove has the lower number, and changes nothing here.
GET_MISSES_BESIDE_A_PENDING_REMOVE = """
    {"invoke":["remove",5],"process":0},
    {"invoke":["get",5],"process":1}, {"answer":null,"process":1}"""
# Three calls can be taken and leave nothing, or a pair: the pending insert goes first or last.
PENDING_INSERT_GOES_BEFORE_OR_AFTER_A_REMOVE = """
    {"invoke":["insert",0,0],"process":0}, {"answer":null,"process":0},
    {"invoke":["insert",0,0],"process":1},
    {"invoke":["remove",0],"process":0}, {"answer":0,"process":0},
    {"invoke":["get",0],"process":2}, {"answer":0,"process":2}"""
PENDING_REMOVE_AND_INSERT = """
    {"invoke":["remove",5],"process":0}, {"invoke":["insert",5,7],"process":1}"""
# A scan that a value answers holds its keys together, as any completed scan does.
SCAN_IS_ANSWERED_BY_A_VALUE = """
    {"invoke":["insert",1,10],"process":0}, {"answer":null,"process":0},
    {"invoke":["scan",1,2],"process":0}, {"answer":7,"process":0},
    {"invoke":["get",2],"process":0}, {"answer":5,"process":0}"""
SCANS_OF_NEIGHBOURS = """
    {"invoke":["scan",3,4],"process":0}, {"answer":[],"process":0},
    {"invoke":["scan",1,2],"process":0}, {"answer":[],"process":0}"""
SCANS_THAT_SHARE_A_KEY = """
    {"invoke":["scan",2,4],"process":0}, {"answer":[],"process":0},
    {"invoke":["scan",1,2],"process":0}, {"answer":[],"process":0}"""
SCAN_INSIDE_ANOTHER = """
    {"invoke":["insert",8,80],"process":0}, {"answer":null,"process":0},
    {"invoke":["scan",2,3],"process":0}, {"answer":[],"process":0},
    {"invoke":["scan",1,9],"process":0}, {"answer":[],"process":0}"""
LAST_KEY_AND_ITS_NEIGHBOUR = """
    {"invoke":["scan",18446744073709551615,18446744073709551615],"process":0}, {"answer":[],"process":0},
    {"invoke":["get",18446744073709551614],"process":0}, {"answer":null,"process":0}"""
# Pending inserts and removes are listed with their key, pending gets and scans nowhere.
PENDING_CALLS_OF_EACH_KIND = """
    {"invoke":["insert",5,7],"process":0}, {"invoke":["remove",4],"process":1},
    {"invoke":["get",3],"process":2}, {"invoke":["scan",0,9],"process":3},
    {"invoke":["get",5],"process":4}, {"answer":7,"process":4}"""
# An insert that is open beside three hundred gets, is answered, and is seen.
OPEN_INSERT_BESIDE_MANY_GETS = ",".join([
    '{"invoke":["insert",5,9],"process":1}', gets(300), '{"answer":null,"process":1}',
    '{"invoke":["get",5],"process":0},{"answer":9,"process":0}',
])

# Events, words, and the line that is written of them as an order.
ORDERS = [
    (NO_EVENTS, "", "ok"),
    (NO_EVENTS, "0", "fault: 1 Unknown at place 0"),
    (GET_MISSES_ANSWERED_INSERT, "", "fault: 5 Missing call 0"),
    (GET_MISSES_ANSWERED_INSERT, "1 0", "fault: 3 Precedence at place 1"),
    (GET_MISSES_ANSWERED_INSERT, "0", "fault: 5 Missing call 1"),
    (GET_MISSES_ANSWERED_INSERT, "0 0", "fault: 2 Repeated at place 1"),
    (GET_MISSES_ANSWERED_INSERT, "0 1", "fault: 4 Reply at place 1"),
    (GET_MISSES_ANSWERED_INSERT, "7", "fault: 1 Unknown at place 0"),
    (INSERT_THEN_GET, "0 1", "ok"),
    (INSERT_THEN_GET, "+0 001", "ok"),
    (INSERT_THEN_GET, "0 1 4294967295", "fault: 1 Unknown at place 2"),
    (GET_SEES_PENDING_INSERT, "0 1", "ok"),
    (GET_SEES_PENDING_INSERT, "1", "fault: 4 Reply at place 0"),
    (GET_MISSES_PENDING_INSERT, "1", "ok"),
    (LATER_GET_MISSES_WHAT_WAS_SEEN, "0 1 2", "fault: 4 Reply at place 2"),
    (GET_MISSES_REFUSED_INSERT, "0 1", "ok"),
    (TWO_KEYS_AND_A_PENDING_SCAN, "1 0 2", "ok"),
    (TWO_KEYS_AND_A_PENDING_SCAN, "1 0 2 3", "ok"),
    (TWO_KEYS_AND_A_PENDING_SCAN, "3 1 0 2", "fault: 3 Precedence at place 1"),
    (SCAN_OF_ALL_KEYS, "0 1 2", "ok"),
    (SCAN_LISTS_KEYS_THAT_FALL, "0 1 2", "fault: 4 Reply at place 2"),
    (SCAN_BEFORE_A_REMOVE, "0 1 2 3 4", "ok"),
    (SCAN_BEFORE_A_REMOVE, "0 1 2 4", "fault: 4 Reply at place 3"),
    (gets(100), numbers(99).replace(",", " "), "fault: 5 Missing call 99"),
    (gets(100), numbers(100).replace(",", " "), "ok"),
    (scans_of_inserts(MOST_CALLS - 1, 1), numbers(MOST_CALLS).replace(",", " "), "ok"),
]

# Starting pairs, and a call from them with answers that make it an order and with others that do not.
HELD = "[0,1],[4,40],[7,70],[18446744073709551615,9]"
ANSWERS = [
    ('"get",4', ["40", '"refused"'], ["70", "null", "[[4,40]]"]),
    ('"insert",4,1', ["40", '"refused"'], ["70", "1", "null", "[[4,40]]"]),
    ('"remove",4', ["40", '"refused"'], ["70", "null", "[[4,40]]"]),
    ('"replace",4,40,1', ["40", '"refused"'], ["1", "null", "[[4,40]]"]),
    ('"replace",4,1,40', ["40"], ["1", "null"]),
    ('"get",5', ["null", '"refused"'], ["40", "[]"]),
    ('"insert",5,1', ["null"], ["1", "[]"]),
    ('"remove",5', ["null"], ["40"]),
    ('"replace",5,0,1', ["null"], ["0", "1"]),
    ('"scan",4,7', ["[[4,40],[7,70]]", '"refused"'], ["[[7,70],[4,40]]", "[[4,40],[7,71]]", "[[4,40]]", "40", "null"]),
    ('"scan",5,6', ["[]"], ["[[4,40]]", "null"]),
    ('"scan",0,0', ["[[0,1]]"], ["[]"]),
    ('"scan",5,18446744073709551615', ["[[7,70],[18446744073709551615,9]]"], ["[[7,70]]"]),
    ('"scan",0,18446744073709551615', [f"[{HELD}]"], ["[]"]),
]

# Events, a budget and the report, whatever the number of workers.
VERDICTS = [
    (NO_EVENTS, 1000, '{"order":[],"verdict":"yes"}'),
    (INSERT_THEN_GET, 1000, '{"order":[0,1],"verdict":"yes"}'),
    (GET_MISSES_OPEN_INSERT, 1000, '{"order":[1,0],"verdict":"yes"}'),
    (GET_SEES_PENDING_INSERT, 1000, '{"order":[0,1],"verdict":"yes"}'),
    (GET_MISSES_PENDING_INSERT, 1000, '{"order":[1],"verdict":"yes"}'),
    (TWO_KEYS, 1000, '{"order":[1,0,2],"verdict":"yes"}'),
    (TWO_KEYS_AND_A_PENDING_SCAN, 1000, '{"order":[1,0,2],"verdict":"yes"}'),
    (TWO_KEYS_BY_FALLING_KEY, 1000, '{"order":[0,1],"verdict":"yes"}'),
    (EFFECT_LATER_THAN_THE_INVOCATION, 1000, '{"order":[1,2,0],"verdict":"yes"}'),
    (SCAN_OF_ALL_KEYS, 1000, '{"order":[0,1,2],"verdict":"yes"}'),
    (GET_MISSES_REFUSED_INSERT, 1000, '{"order":[0,1],"verdict":"yes"}'),
    (PENDING_GET_AND_SCAN, 1000, '{"order":[],"verdict":"yes"}'),
    (GET_MISSES_ANSWERED_INSERT, 1000, '{"calls":[0,1],"hi":5,"lo":5,"verdict":"no"}'),
    (LATER_GET_MISSES_WHAT_WAS_SEEN, 1000, '{"calls":[0,1,2],"hi":5,"lo":5,"verdict":"no"}'),
    (SCAN_MISSES_THE_FIRST_OF_TWO_INSERTS, 1000, '{"calls":[0,1,2],"hi":2,"lo":1,"verdict":"no"}'),
    (SCANS_SEE_TWO_INSERTS_IN_DIFFERENT_ORDER, 1000, '{"calls":[0,1,2,3],"hi":2,"lo":1,"verdict":"no"}'),
    (SCAN_LISTS_KEYS_THAT_FALL, 1000, '{"calls":[0,1,2],"hi":18446744073709551615,"lo":0,"verdict":"no"}'),
    (GET_SEES_REFUSED_INSERT, 1000, '{"calls":[0,1],"hi":5,"lo":5,"verdict":"no"}'),
    (GET_IS_ANSWERED_BY_A_LIST, 1000, '{"calls":[0],"hi":5,"lo":5,"verdict":"no"}'),
    (INSERT_BESIDE_A_SCAN_IS_ANSWERED_FALSELY, 1000, '{"calls":[1],"hi":3,"lo":3,"verdict":"no"}'),
    (REFUSED_SCAN_TIES_KEYS, 1000, '{"calls":[0,1,2],"hi":2,"lo":1,"verdict":"no"}'),
    (TWO_GETS_SEE_WHAT_NOBODY_INSERTED, 1000, '{"calls":[1],"hi":1,"lo":1,"verdict":"no"}'),
    # At small budgets.
    (GET_MISSES_OPEN_INSERT, 4, '{"order":[1,0],"verdict":"yes"}'),
    (GET_MISSES_OPEN_INSERT, 3, '{"calls":[0,1],"hi":5,"lo":5,"verdict":"undecided"}'),
    # The later no decides where the segment before it is spent.
    (GET_SEES_WHAT_NOBODY_INSERTED, 4, '{"calls":[2],"hi":9,"lo":9,"verdict":"no"}'),
    (GET_SEES_WHAT_NOBODY_INSERTED, 3, '{"calls":[2],"hi":9,"lo":9,"verdict":"no"}'),
    # One call is decided at a budget of two.
    (ONE_INSERT, 2, '{"order":[0],"verdict":"yes"}'),
    (GET_IS_ANSWERED_BY_A_LIST, 2, '{"calls":[0],"hi":5,"lo":5,"verdict":"no"}'),
    (ONE_INSERT, 1, '{"calls":[0],"hi":5,"lo":5,"verdict":"undecided"}'),
    (PENDING_REMOVE, 1, '{"order":[],"verdict":"yes"}'),
    # Each segment has the whole budget.
    (TWO_KEYS_BY_FALLING_KEY, 2, '{"order":[0,1],"verdict":"yes"}'),
    (TWO_KEYS_BY_FALLING_KEY, 1, '{"calls":[1],"hi":1,"lo":1,"verdict":"undecided"}'),
    # The budget is of new configurations.
    (GET_MISSES_ANSWERED_INSERT, 2, '{"calls":[0,1],"hi":5,"lo":5,"verdict":"no"}'),
    (GET_MISSES_ANSWERED_INSERT, 1, '{"calls":[0,1],"hi":5,"lo":5,"verdict":"undecided"}'),
    (GET_IS_ANSWERED_BY_A_LIST, 1, '{"calls":[0],"hi":5,"lo":5,"verdict":"no"}'),
    (LATER_GET_MISSES_WHAT_WAS_SEEN, 3, '{"calls":[0,1,2],"hi":5,"lo":5,"verdict":"no"}'),
    (LATER_GET_MISSES_WHAT_WAS_SEEN, 2, '{"calls":[0,1,2],"hi":5,"lo":5,"verdict":"undecided"}'),
    (SCANS_SEE_TWO_INSERTS_IN_DIFFERENT_ORDER, 8, '{"calls":[0,1,2,3],"hi":2,"lo":1,"verdict":"no"}'),
    (SCANS_SEE_TWO_INSERTS_IN_DIFFERENT_ORDER, 7, '{"calls":[0,1,2,3],"hi":2,"lo":1,"verdict":"undecided"}'),
    # A pending call need not be taken; the least order takes the lower number first, also of such a call.
    (PENDING_INSERT, 1, '{"order":[],"verdict":"yes"}'),
    (PENDING_REMOVE_AND_INSERT, 1, '{"order":[],"verdict":"yes"}'),
    (GET_MISSES_BESIDE_A_PENDING_REMOVE, 3, '{"order":[0,1],"verdict":"yes"}'),
    (GET_MISSES_BESIDE_A_PENDING_REMOVE, 2, '{"calls":[0,1],"hi":5,"lo":5,"verdict":"undecided"}'),
    # The same calls taken count once for each list of pairs that they leave.
    (PENDING_INSERT_GOES_BEFORE_OR_AFTER_A_REMOVE, 7, '{"order":[0,2,1,3],"verdict":"yes"}'),
    (PENDING_INSERT_GOES_BEFORE_OR_AFTER_A_REMOVE, 6, '{"calls":[0,1,2,3],"hi":0,"lo":0,"verdict":"undecided"}'),
    # Which calls are in one segment: if the budget is spent, the first segment is named.
    (SCAN_IS_ANSWERED_BY_A_VALUE, 1000, '{"calls":[0,1,2],"hi":2,"lo":1,"verdict":"no"}'),
    (SCANS_OF_NEIGHBOURS, 2, '{"order":[0,1],"verdict":"yes"}'),
    (SCANS_OF_NEIGHBOURS, 1, '{"calls":[1],"hi":2,"lo":1,"verdict":"undecided"}'),
    (SCANS_THAT_SHARE_A_KEY, 2, '{"calls":[0,1],"hi":4,"lo":1,"verdict":"undecided"}'),
    (SCAN_INSIDE_ANOTHER, 1000, '{"calls":[0,1,2],"hi":9,"lo":1,"verdict":"no"}'),
    (
        LAST_KEY_AND_ITS_NEIGHBOUR, 1,
        '{"calls":[1],"hi":18446744073709551614,"lo":18446744073709551614,"verdict":"undecided"}',
    ),
    (PENDING_CALLS_OF_EACH_KIND, 1000, '{"order":[0,4],"verdict":"yes"}'),
    (PENDING_CALLS_OF_EACH_KIND, 1, '{"calls":[0,4],"hi":5,"lo":5,"verdict":"undecided"}'),
]

# Texts that spell a history otherwise than the compact form does, and their orders.
SPELLED = [
    (
        """{ "version": 1,
 "events": [ {"process": 0, "invoke": ["insert", 5, 7]}, {"process": 0, "answer": null},
 {"invoke": ["get", 5], "process": 0}, {"process": 0, "answer": 7} ] }
""", "0,1",
    ),
    ('{"events":[],"start":[],"version":2}', ""),
    (
        """{"version": 2, "start": [[5, 7], [6, 0]], "events": [{"invoke": ["replace", 5, 7, 8], "process": 0},
 {"answer": 7, "process": 0}, {"process": 0, "invoke": ["get", 5]}, {"process": 0, "answer": 8}]}""", "0,1",
    ),
    # A line feed may follow the compact form. The others differ from it in a few bytes.
    ('{"events":[{"invoke":["get",5],"process":0},{"answer":null,"process":0}],"version":1}\n', "0"),
    ('{"events":[{"invoke":["get",5],"process":0},{"answer":null,"process":0}],"version":1}\n\n', "0"),
    ('{"events":[{"invoke":["get",5],"process":0},{"answer":null,"process":0}],"version":1} ', "0"),
    ('{"events":[{"invoke":["get",5],"process":0},{"answer":null,"process":0} ],"version":1}', "0"),
    ('{"events":[{"invoke":["\\u0067et",5],"process":0},{"answer":null,"process":0}],"version":1}', "0"),
    ('{"events":[{"invoke":["get",5],"process":9,"process":0},{"answer":null,"process":0}],"version":1}', "0"),
    ('{"events":[7],"events":[{"invoke":["get",5],"process":0},{"answer":null,"process":0}],"version":1}', "0"),
    ('{"events":[{"invoke":["get",5],"process":0},{"answer":null,"process":0}],"version":2,"version":1}', "0"),
    ('{"events":[{"invoke":["get",5],"process":0},{"answer":null,"process":0}],"start":[],"start":[],"version":3}', "0"),
    ('{"events":[{"invoke":["get",5],"note":"","process":0},{"answer":null,"process":0}],"start":[],"version":3}', "0"),
    (
        '{"events":[{"invoke":["scan",0,9],"process":63},{"answer":[[0,18446744073709551615],[9,0]],"process":63}],'
        '"start":[[0,18446744073709551615],[9,0],[10,1]],"version":2}', "0",
    ),
]

WELL = '{"verdict":"yes"}'

# Events, a budget and the line that says where they go wrong.
LOCATIONS = [
    (NO_EVENTS, 1, WELL),
    (INSERT_THEN_GET, 1000, WELL),
    (GET_SEES_ANSWERED_INSERT, 1000, WELL),
    (GET_MISSES_OPEN_INSERT, 1000, WELL),
    (GET_SEES_PENDING_INSERT, 1000, WELL),
    (GET_MISSES_PENDING_INSERT, 1000, WELL),
    (TWO_KEYS, 1000, WELL),
    (TWO_KEYS_AND_A_PENDING_SCAN, 1000, WELL),
    (TWO_KEYS_BY_FALLING_KEY, 1000, WELL),
    (EFFECT_LATER_THAN_THE_INVOCATION, 1000, WELL),
    (SCAN_OF_ALL_KEYS, 1000, WELL),
    (GET_MISSES_REFUSED_INSERT, 1000, WELL),
    (MISSED_INSERT_IS_REFUSED, 1000, WELL),
    (PENDING_GET_AND_SCAN, 1, WELL),
    (PENDING_INSERT, 1, WELL),
    (PENDING_REMOVE, 1, WELL),
    (ONE_INSERT, 2, WELL),
    (GET_MISSES_ANSWERED_INSERT, 1000, '{"call":1,"event":3,"verdict":"no"}'),
    (LATER_GET_MISSES_WHAT_WAS_SEEN, 1000, '{"call":2,"event":4,"verdict":"no"}'),
    (SCAN_MISSES_THE_FIRST_OF_TWO_INSERTS, 1000, '{"call":0,"event":5,"verdict":"no"}'),
    (SCANS_SEE_TWO_INSERTS_IN_DIFFERENT_ORDER, 1000, '{"call":3,"event":7,"verdict":"no"}'),
    (SCAN_LISTS_KEYS_THAT_FALL, 1000, '{"call":2,"event":5,"verdict":"no"}'),
    (GET_SEES_WHAT_NOBODY_INSERTED, 1000, '{"call":2,"event":5,"verdict":"no"}'),
    (GET_SEES_REFUSED_INSERT, 1000, '{"call":1,"event":3,"verdict":"no"}'),
    (SEEN_INSERT_IS_REFUSED, 1000, '{"call":0,"event":3,"verdict":"no"}'),
    (GET_IS_ANSWERED_BY_A_LIST, 1000, '{"call":0,"event":1,"verdict":"no"}'),
    (TWO_GETS_SEE_WHAT_NOBODY_INSERTED, 1000, '{"call":0,"event":1,"verdict":"no"}'),
    (INSERT_BESIDE_A_SCAN_IS_ANSWERED_FALSELY, 1000, '{"call":1,"event":3,"verdict":"no"}'),
    (REFUSED_SCAN_TIES_KEYS, 1000, '{"call":2,"event":5,"verdict":"no"}'),
    (FALSE_GET_BEFORE_OTHERS, 1000, '{"call":1,"event":3,"verdict":"no"}'),
    (FALSE_GET_BEFORE_OTHERS, 1, '{"call":1,"event":3,"verdict":"no"}'),
    (GET_SEES_WHAT_NOBODY_INSERTED, 1, '{"call":2,"event":5,"verdict":"no"}'),
    (INSERT_THEN_GET, 1, WELL),
    (ONE_INSERT, 1, WELL),
    (gets(MOST_CALLS), 1, WELL),
    # The get that is answered cannot come first: it comes after the insert that put what it found. This order is guessed, so nothing is searched.
    (GET_SEES_THE_THIRD_OF_FIVE_OPEN_INSERTS, 1, WELL),
    # No order can be guessed, since there is none. A search meets one configuration before any call is taken, and a second one after an insert.
    (GETS_SEE_AN_OPEN_INSERT_AGAIN, 1, '{"call":5,"event":8,"reason":"budget","verdict":"undecided"}'),
    (GETS_SEE_AN_OPEN_INSERT_AGAIN, 4, '{"call":5,"event":8,"reason":"budget","verdict":"undecided"}'),
    (GETS_SEE_AN_OPEN_INSERT_AGAIN, 1000, '{"call":5,"event":8,"verdict":"no"}'),
]

# Seeds, processes, calls, and how many copies with one answer changed: histories on two keys with scans.
HOT_KEYS = [(2, 8, 4096, 6), (4, 6, 4096, 6)]

# Arguments, events, and the whole report, or where they go wrong: the number of workers and the place of the options change nothing.
OPTIONS = [
    ("judge", GET_MISSES_OPEN_INSERT, '{"order":[1,0],"verdict":"yes"}'),
    ("judge --workers 2", GET_MISSES_OPEN_INSERT, '{"order":[1,0],"verdict":"yes"}'),
    ("judge --budget 1000000", GET_MISSES_OPEN_INSERT, '{"order":[1,0],"verdict":"yes"}'),
    ("judge --budget 4 --workers 3", GET_MISSES_OPEN_INSERT, '{"order":[1,0],"verdict":"yes"}'),
    ("judge --workers 3 --budget 4", GET_MISSES_OPEN_INSERT, '{"order":[1,0],"verdict":"yes"}'),
    ("judge --budget=3 --workers=4", GET_MISSES_OPEN_INSERT, '{"calls":[0,1],"hi":5,"lo":5,"verdict":"undecided"}'),
    ("judge --workers=4 --budget=3", GET_MISSES_OPEN_INSERT, '{"calls":[0,1],"hi":5,"lo":5,"verdict":"undecided"}'),
    ("locate", NO_EVENTS, WELL),
    ("locate --budget 1000000", LATER_GET_MISSES_WHAT_WAS_SEEN, '{"call":2,"event":4,"verdict":"no"}'),
    ("locate --budget=1", GET_MISSES_ANSWERED_INSERT, '{"call":1,"event":3,"verdict":"no"}'),
    ("locate --order", NO_EVENTS, '{"order":[],"verdict":"yes"}'),
    ("locate --order --budget 1000", GET_MISSES_ANSWERED_INSERT, '{"call":1,"event":3,"order":[0],"verdict":"no"}'),
    ("locate --budget 1000 --order", GET_MISSES_ANSWERED_INSERT, '{"call":1,"event":3,"order":[0],"verdict":"no"}'),
]

# The value 5 is overwritten, and read again after others.
READ_OF_AN_OVERWRITTEN_VALUE = """
    {"invoke":["insert",1,4],"process":0}, {"answer":null,"process":0},
    {"invoke":["insert",1,5],"process":0}, {"answer":4,"process":0},
    {"invoke":["get",1],"process":0}, {"answer":5,"process":0},
    {"invoke":["insert",1,6],"process":0}, {"answer":5,"process":0},
    {"invoke":["insert",2,9],"process":0}, {"answer":null,"process":0},
    {"invoke":["insert",1,7],"process":0}, {"answer":6,"process":0},
    {"invoke":["get",1],"process":0}, {"answer":5,"process":0},
    {"invoke":["scan",1,2],"process":0}, {"answer":[[1,7],[2,9]],"process":0}"""
# The same, where 5 is inserted a second time, beside the read.
READ_OF_A_VALUE_THAT_CAME_BACK = """
    {"invoke":["insert",1,5],"process":0}, {"answer":null,"process":0},
    {"invoke":["insert",1,6],"process":0}, {"answer":5,"process":0},
    {"invoke":["insert",1,5],"process":1},
    {"invoke":["get",1],"process":0}, {"answer":5,"process":0},
    {"invoke":["get",1],"process":0}, {"answer":6,"process":0}"""


def overwrites(count):
    """So many inserts at one key, each answered by the value of the one before, and then a read of the value of a middle one."""
    held = ["null", *map(str, range(count))]
    events = [f'{{"invoke":["insert",5,{value}],"process":0}},{{"answer":{held[value]},"process":0}}' for value in range(count)]
    return ",".join([*events, f'{{"invoke":["get",5],"process":0}},{{"answer":{count // 2},"process":0}}'])


# What was removed is read again, beside an insert of another value that is never answered.
REMOVED_VALUE_COMES_BACK = """
    {"invoke":["insert",1,5],"process":0}, {"answer":null,"process":0},
    {"invoke":["remove",1],"process":0}, {"answer":5,"process":0},
    {"invoke":["insert",1,7],"process":1},
    {"invoke":["get",1],"process":0}, {"answer":5,"process":0}"""
# The second replace finds what the first one replaced.
UPDATE_IS_LOST = """
    {"invoke":["insert",1,5],"process":0}, {"answer":null,"process":0},
    {"invoke":["replace",1,5,6],"process":0}, {"answer":5,"process":0},
    {"invoke":["replace",1,5,7],"process":1}, {"answer":5,"process":1}"""
# Of two inserts that were answered the scan lists one, and of key 2 what was overwritten before it began.
SCAN_MISSES_AN_OVERWRITE = """
    {"invoke":["insert",1,5],"process":0}, {"answer":null,"process":0},
    {"invoke":["insert",2,6],"process":0}, {"answer":null,"process":0},
    {"invoke":["insert",2,7],"process":0}, {"answer":6,"process":0},
    {"invoke":["scan",1,2],"process":0}, {"answer":[[1,5],[2,6]],"process":0}"""

# Events, a budget, and the calls that explain them. Each has the event of its invocation, a question mark if it has no answer, an exclamation mark
# if its answer is left out, and a letter for the reason. Then come the values from outside these calls, by key, each with the events of the calls
# that put it. Last comes each call that misses others, by its event and theirs.
EXPLANATIONS = [
    (GET_SEES_ANSWERED_INSERT, 1000, None, "", ""),
    (GET_MISSES_ANSWERED_INSERT, 1000, "0o 2o", "", "2: [0]"),
    # Two configurations are met with both calls, and one without one of them.
    (GET_MISSES_ANSWERED_INSERT, 2, "0o 2o", "", "2: [0]"),
    (GET_SEES_WHAT_NOBODY_INSERTED, 1000, "4o", "9: 1 []", ""),
    # No insert is answered before the gets, or the scans, begin.
    (LATER_GET_MISSES_WHAT_WAS_SEEN, 1000, "0?o 1o 3o", "", ""),
    (SCAN_MISSES_THE_FIRST_OF_TWO_INSERTS, 1000, "0o 1o 3o", "", ""),
    # Two inserts that are open or beside, and two scans that cannot both be right.
    (SCANS_SEE_TWO_INSERTS_IN_DIFFERENT_ORDER, 1000, "0o 1o 2o 3o", "", ""),
    # The insert of 7 overwrites what comes before it, whatever it found; that at key 2 comes later, and so does the first get.
    (READ_OF_AN_OVERWRITTEN_VALUE, 1000, "10!o 12o", "1: 5 [2]", "12: [10]"),
    # The open insert may have put the value again, and the second insert what is read at last.
    (READ_OF_A_VALUE_THAT_CAME_BACK, 1000, "0o 2o 4?o 5o 7o", "", ""),
    (REMOVED_VALUE_COMES_BACK, 1000, "2!o 5o", "1: 5 [0]", "5: [2]"),
    # Without the insert the first replace waits for what it put.
    (UPDATE_IS_LOST, 1000, "0h 2o 4o", "", "4: [2]"),
    (SCAN_MISSES_AN_OVERWRITE, 1000, "0o 4!o 6o", "2: 6 [2]", "6: [4]"),
    # Of three hundred inserts the last stays, as it overwrites what is read after it, and the read.
    (overwrites(300), 100_000, "598!o 600o", "5: 150 [300]", "600: [598]"),
]

# A scan that misses a pair in the middle of those that are held, and its explanation, from the pairs within its keys.
HELD_BY_A_SCAN = "[1,10],[4,40],[5,50],[6,60],[9,90]"
SCAN_MISSES_A_PAIR = '{"invoke":["scan",4,6],"process":0},{"answer":[[4,40],[6,60]],"process":0}'
SCAN_EXPLAINED = """{"calls":[0],"hi":6,"lo":4,"verdict":"no"}
{"answer":[[4,40],[6,60]],"call":["scan",4,6],"event":0,"process":0,"reason":"order"}
{"events":[{"invoke":["scan",4,6],"process":0},{"answer":[[4,40],[6,60]],"process":0}],"start":[[4,40],[5,50],[6,60]],"version":2}
{"front":[],"holds":[[4,40],[5,50],[6,60]],"next":[{"answer":[[4,40],[6,60]],"event":0,"would":[[4,40],[5,50],[6,60]]}]}
"""

# Of two inserts of one value the later one is undone by a remove, and after that the value is there: so the earlier one put it.
REMOVED_VALUE_IS_PUT_BY_AN_OLDER_INSERT = """
    {"invoke":["insert",5,7],"process":1},
    {"invoke":["insert",5,7],"process":2}, {"answer":null,"process":2},
    {"invoke":["remove",5],"process":2}, {"answer":7,"process":2},
    {"invoke":["get",5],"process":3}, {"answer":7,"process":3}, {"answer":null,"process":1},
    {"invoke":["get",5],"process":3}, {"answer":9,"process":3}"""
# The get that misses the insert at its key is at another key than the scan, which was right.
GET_OF_ANOTHER_KEY_GOES_WRONG = """
    {"invoke":["insert",3,30],"process":0}, {"answer":null,"process":0},
    {"invoke":["insert",5,7],"process":0}, {"answer":null,"process":0},
    {"invoke":["insert",1,10],"process":1},
    {"invoke":["scan",1,3],"process":2}, {"answer":[[3,30]],"process":2},
    {"invoke":["get",5],"process":3}, {"answer":null,"process":3}"""
# An insert that is open holds the get beside it; what was answered before both is gone.
OPEN_INSERT_HOLDS_A_GET = """
    {"invoke":["insert",5,1],"process":0}, {"answer":null,"process":0},
    {"invoke":["insert",5,2],"process":1},
    {"invoke":["get",5],"process":0}, {"answer":2,"process":0}"""
# Five inserts at one key, of which two are answered as if each came first.
INSERTS_ALL_COME_FIRST = """
    {"invoke":["insert",5,1],"process":0}, {"invoke":["insert",5,2],"process":1},
    {"invoke":["insert",5,3],"process":2}, {"invoke":["insert",5,4],"process":3},
    {"invoke":["insert",5,5],"process":4}, {"answer":null,"process":0}, {"answer":null,"process":1}"""

# The insert that is open holds the get and, through it, the remove before it; the first insert was answered before all of these. Then
# the open one is answered by what the remove took.
INSERT_HOLDS_A_REMOVE = """
    {"invoke":["insert",1,5],"process":0}, {"answer":null,"process":0},
    {"invoke":["remove",1],"process":1}, {"invoke":["get",1],"process":2}, {"answer":5,"process":1},
    {"invoke":["insert",1,8],"process":3}, {"answer":8,"process":2}, {"answer":5,"process":3}"""
# Calls of the keys of the scan that is open stay. Key 4 is none of them.
PENDING_SCAN_HOLDS_ITS_KEYS_ALONE = """
    {"invoke":["insert",4,5],"process":0}, {"invoke":["scan",1,3],"process":1}, {"answer":null,"process":0},
    {"invoke":["insert",3,5],"process":2}, {"answer":null,"process":2},
    {"invoke":["insert",4,6],"process":4}, {"answer":5,"process":4},
    {"invoke":["get",4],"process":0}, {"answer":null,"process":0}"""
# The same, but a second scan makes keys 3 and 4 one part: from then on calls of key 4 stay too.
PENDING_SCAN_HOLDS_ITS_PART = """
    {"invoke":["insert",4,5],"process":0}, {"invoke":["scan",1,3],"process":1}, {"answer":null,"process":0},
    {"invoke":["insert",3,5],"process":2}, {"answer":null,"process":2},
    {"invoke":["scan",3,4],"process":3}, {"answer":[[3,5],[4,5]],"process":3},
    {"invoke":["insert",4,6],"process":4}, {"answer":5,"process":4},
    {"invoke":["get",4],"process":0}, {"answer":null,"process":0}"""
SCAN_LISTS_WHAT_NOBODY_INSERTED = """
    {"invoke":["insert",1,5],"process":0}, {"answer":null,"process":0},
    {"invoke":["scan",1,3],"process":0}, {"answer":[[1,5],[3,9]],"process":0}"""
# The scan lists what the first insert put, before that is answered or after it, and not what the second one puts, which is never answered.
SCAN_MAY_HAVE_COME_BEFORE_AN_ANSWER = """
    {"invoke":["insert",1,10],"process":0}, {"invoke":["insert",2,20],"process":1},
    {"invoke":["scan",1,2],"process":2}, {"answer":null,"process":0}, {"answer":[[1,10]],"process":2},
    {"invoke":["get",2],"process":0}, {"answer":20,"process":0},
    {"invoke":["get",2],"process":0}, {"answer":null,"process":0}"""


def many_ways(scans, rounds):
    """So many scans at once, with an insert that is never answered and rounds of an insert and a remove of its key. Whatever the others did, each
    scan may have come before a round, after it, or in it: before its insert or after its remove."""
    begun = [f'{{"invoke":["scan",1,1],"process":{process}}}' for process in range(1, scans + 1)]
    each = (
        '{"invoke":["insert",1,20],"process":9},{"answer":null,"process":9},{"invoke":["remove",1],"process":9},{"answer":20,"process":9}'
    )
    ended = [f'{{"answer":[],"process":{process}}}' for process in range(1, scans + 1)]
    return ",".join(['{"invoke":["insert",1,10],"process":0}', *begun, *[each] * rounds, *ended])


def dead_writer(value, count, found_by_the_second):
    """An insert that is not answered, and so many others after it. Each inserts its number and finds the one before it. The second one may find
    another value than the first one's."""
    found = [None, 1 if found_by_the_second is None else found_by_the_second, *range(2, count)]
    inserts = [
        f'{{"invoke":["insert",5,{number + 1}],"process":0}},{{"answer":{json.dumps(found[number])},"process":0}}' for number in range(count)
    ]
    return ",".join([f'{{"invoke":["insert",5,{value}],"process":9}}', *inserts])


def get_of_five(found):
    return f',{{"invoke":["get",5],"process":0}},{{"answer":{found},"process":0}}'


def many_readers(last):
    """An insert beside 61 gets, all at once: 60 find nothing, and the last one this. In whatever order the gets are taken, they leave the
    map as it is: the exact search meets each set of them, and reads first one list of them."""
    begun = ['{"invoke":["insert",5,7],"process":0}', *(f'{{"invoke":["get",5],"process":{process}}}' for process in range(1, 62))]
    missed = [f'{{"answer":null,"process":{process}}}' for process in range(1, 61)]
    return ",".join([*begun, *missed, f'{{"answer":{last},"process":61}}'])


def beside_an_open_scan(rounds):
    """A scan that stays open, and rounds of an insert beside a get, which finds it or, each second time, what was there before."""
    found = [None, *range(1, rounds + 1)]
    each = [
        f'{{"invoke":["insert",5,{number}],"process":0}},{{"invoke":["get",5],"process":1}},'
        f'{{"answer":{json.dumps(found[number - 1])},"process":0}},{{"answer":{json.dumps(found[number - number % 2])},"process":1}}'
        for number in range(1, rounds + 1)
    ]
    return ",".join(['{"invoke":["scan",5,5],"process":9}', *each])


# Events and what following them comes to: how many calls there are, and how many others were open at an invocation on average, rounded
# down to hundredths.
FOLLOWED = [
    (NO_EVENTS, 0, "0.00"),
    (INSERT_THEN_GET, 2, "0.00"),
    (GET_SEES_PENDING_INSERT, 2, "0.50"),
    (GET_MISSES_PENDING_INSERT, 2, "0.50"),
    (TWO_KEYS_AND_A_PENDING_SCAN, 4, "0.75"),
    (SCAN_OF_ALL_KEYS, 3, "0.00"),
    (GET_MISSES_REFUSED_INSERT, 2, "0.00"),
    (EFFECT_LATER_THAN_THE_INVOCATION, 3, "0.66"),
    (PENDING_GET_AND_SCAN, 2, "0.50"),
    (OPEN_INSERT_HOLDS_A_GET, 3, "0.33"),
    (OPEN_INSERT_BESIDE_MANY_GETS, 302, "0.99"),
    # 61 * 62 / 2 of 62 calls.
    (many_readers("7"), 62, "30.50"),
    # Each scan may have come at four moments. 1 + 2 + .. + 6 + 6 * 7 of 13 calls, and 1 + 2 + .. + 7 + 6 * 8 of 14.
    (many_ways(6, 3), 13, "4.84"),
    (many_ways(7, 3), 14, "5.42"),
    # 1 + 2 + 800 * 3 of 803 calls.
    (many_ways(2, 400), 803, "2.99"),
    # The insert of a dead process is found, or not, or is answered after all by what it found.
    (dead_writer(16, 16, None) + get_of_five(16), 18, "0.94"),
    (dead_writer(99, 16, 99) + ',{"answer":1,"process":9}', 17, "0.94"),
    (dead_writer(99, 16, None) + get_of_five(99) + get_of_five(99), 19, "0.94"),
    # All calls of the key are left. 1 + 2 in each round, of 401 calls.
    (beside_an_open_scan(200), 401, "1.49"),
    (gets(60_000), 60_000, "0.00"),
]

# Events, a budget, and what is written of those that go wrong, or where it is not known: the report, and a small history.
LOST = [
    (
        GET_MISSES_ANSWERED_INSERT, 1000, report_of(1, 3, [(5, [2], [7], [0])]),
        '{"events":[{"invoke":["get",5],"process":0},{"answer":null,"process":0}],"start":[[5,7]],"version":2}',
    ),
    (
        LATER_GET_MISSES_WHAT_WAS_SEEN, 1000, report_of(2, 4, [(5, [0, 1, 3], [None], [None])]),
        '{"events":[{"invoke":["insert",5,7],"process":0},{"invoke":["get",5],"process":1},{"answer":7,"process":1},'
        '{"invoke":["get",5],"process":1},{"answer":null,"process":1}],"version":1}',
    ),
    # The scan makes the keys one part. It was open from the start, so all calls of its keys are left.
    (
        SCAN_MISSES_THE_FIRST_OF_TWO_INSERTS, 1000, report_of(0, 5, [(1, [0, 1], [None], [None]), (2, [0, 3], [None], [None])]),
        '{"events":[{"invoke":["scan",1,2],"process":0},{"invoke":["insert",1,10],"process":1},{"answer":null,"process":1},'
        '{"invoke":["insert",2,20],"process":1},{"answer":null,"process":1},{"answer":[[2,20]],"process":0}],"version":1}',
    ),
    (
        SCANS_SEE_TWO_INSERTS_IN_DIFFERENT_ORDER, 1000, report_of(3, 7, [(1, [0, 2, 3], [None], [None]), (2, [1, 2, 3], [None], [None])]),
        json.dumps(json.loads(history(SCANS_SEE_TWO_INSERTS_IN_DIFFERENT_ORDER)), separators=(",", ":"), sort_keys=True),
    ),
    (
        GET_SEES_WHAT_NOBODY_INSERTED, 1000, report_of(2, 5, [(9, [4], [None], [None])]),
        '{"events":[{"invoke":["get",9],"process":0},{"answer":1,"process":0}],"version":1}',
    ),
    # No map answers a scan so, whatever its keys have.
    (SCAN_LISTS_KEYS_THAT_FALL, 1000, report_of(2, 5, []), None),
    (SCAN_IS_ANSWERED_BY_A_VALUE, 1000, report_of(1, 3, []), None),
    (
        GET_SEES_REFUSED_INSERT, 1000, report_of(1, 3, [(5, [2], [None], [None])]),
        '{"events":[{"invoke":["get",5],"process":0},{"answer":7,"process":0}],"version":1}',
    ),
    # The refused insert is left no longer.
    (
        SEEN_INSERT_IS_REFUSED, 1000, report_of(0, 3, [(5, [1], [None], [None])]),
        '{"events":[{"invoke":["get",5],"process":0},{"answer":7,"process":0}],"version":1}',
    ),
    (
        GET_IS_ANSWERED_BY_A_LIST, 1000, report_of(0, 1, [(5, [0], [None], [None])]),
        '{"events":[{"invoke":["get",5],"process":0},{"answer":[],"process":0}],"version":1}',
    ),
    (
        REFUSED_SCAN_TIES_KEYS, 1000, report_of(2, 5, [(2, [4], [None], [None])]),
        '{"events":[{"invoke":["get",2],"process":0},{"answer":5,"process":0}],"version":1}',
    ),
    (
        GET_OF_ANOTHER_KEY_GOES_WRONG, 1000, report_of(4, 8, [(5, [7], [7], [2])]),
        '{"events":[{"invoke":["get",5],"process":0},{"answer":null,"process":0}],"start":[[5,7]],"version":2}',
    ),
    (
        REMOVED_VALUE_IS_PUT_BY_AN_OLDER_INSERT, 1000, report_of(4, 9, [(5, [8], [7], [0])]),
        '{"events":[{"invoke":["get",5],"process":0},{"answer":9,"process":0}],"start":[[5,7]],"version":2}',
    ),
    (
        INSERTS_ALL_COME_FIRST, 1000, report_of(1, 6, [(5, [0, 1, 2, 3, 4], [None], [None])]),
        '{"events":[{"invoke":["insert",5,1],"process":0},{"invoke":["insert",5,2],"process":1},{"invoke":["insert",5,3],"process":2},'
        '{"invoke":["insert",5,4],"process":3},{"invoke":["insert",5,5],"process":4},{"answer":null,"process":0},'
        '{"answer":null,"process":1}],"version":1}',
    ),
    # At budgets that are too small for the last answer. The orders before it are guessed.
    (GETS_SEE_AN_OPEN_INSERT_AGAIN, 1, report_of(5, 8, [(5, [0, 1, 2, 3, 5, 7], [None], [None])], "budget"), None),
    (GETS_SEE_AN_OPEN_INSERT_AGAIN, 4, report_of(5, 8, [(5, [0, 1, 2, 3, 5, 7], [None], [None])], "budget"), None),
    (
        INSERT_HOLDS_A_REMOVE, 1000, report_of(3, 7, [(1, [2, 3, 5], [5], [0])]),
        '{"events":[{"invoke":["remove",1],"process":0},{"invoke":["get",1],"process":1},{"answer":5,"process":0},'
        '{"invoke":["insert",1,8],"process":0},{"answer":8,"process":1},{"answer":5,"process":0}],"start":[[1,5]],"version":2}',
    ),
    (
        PENDING_SCAN_HOLDS_ITS_KEYS_ALONE, 1000, report_of(4, 8, [(4, [7], [6], [5])]),
        '{"events":[{"invoke":["get",4],"process":0},{"answer":null,"process":0}],"start":[[4,6]],"version":2}',
    ),
    (
        PENDING_SCAN_HOLDS_ITS_PART, 1000, report_of(5, 10, [(3, [3, 5], [None], [None]), (4, [5, 7, 9], [5], [0])]),
        '{"events":[{"invoke":["insert",3,5],"process":0},{"answer":null,"process":0},{"invoke":["scan",3,4],"process":0},'
        '{"answer":[[3,5],[4,5]],"process":0},{"invoke":["insert",4,6],"process":0},{"answer":5,"process":0},'
        '{"invoke":["get",4],"process":0},{"answer":null,"process":0}],"start":[[4,5]],"version":2}',
    ),
    (many_readers("9"), 100, report_of(61, 122, [(5, [*range(62)], [None], [None])]), history(many_readers("9"))),
    # Of the keys of a scan those are named at which it reports something else than they have.
    (
        SCAN_MISSES_AN_OVERWRITE, 1000, report_of(3, 7, [(2, [6], [7], [4])]),
        '{"events":[{"invoke":["scan",1,2],"process":0},{"answer":[[1,5],[2,6]],"process":0}],"start":[[1,5],[2,7]],"version":2}',
    ),
    (
        SCAN_LISTS_WHAT_NOBODY_INSERTED, 1000, report_of(1, 3, [(3, [2], [None], [None])]),
        '{"events":[{"invoke":["scan",1,3],"process":0},{"answer":[[1,5],[3,9]],"process":0}],"start":[[1,5]],"version":2}',
    ),
    # The scan may have come before the answer of the first insert or after it. The later get misses what was put.
    (
        SCAN_MAY_HAVE_COME_BEFORE_AN_ANSWER, 1000, report_of(4, 8, [(1, [0, 2], [None], [None]), (2, [1, 2, 5, 7], [None], [None])]),
        '{"events":[{"invoke":["insert",1,10],"process":0},{"invoke":["insert",2,20],"process":1},{"invoke":["scan",1,2],"process":2},'
        '{"answer":null,"process":0},{"answer":[[1,10]],"process":2},{"invoke":["get",2],"process":2},{"answer":20,"process":2},'
        '{"invoke":["get",2],"process":2},{"answer":null,"process":2}],"version":1}',
    ),
    # The part moves on once 40 calls are left: the insert of the dead process, which no later insert has found, and 39 others. 25 come after these.
    (
        dead_writer(64, 64, None) + get_of_five(5), 1000, report_of(65, 130, [(5, [0, *range(79, 130, 2)], [39], [77])]),
        '{"events":[{"invoke":["insert",5,64],"process":0},'
        + "".join(f'{{"invoke":["insert",5,{value}],"process":1}},{{"answer":{value - 1},"process":1}},' for value in range(40, 65))
        + '{"invoke":["get",5],"process":1},{"answer":5,"process":1}],"start":[[5,39]],"version":2}',
    ),
    # It has come for sure, between the first and the second insert: so it is not in the small history.
    (
        dead_writer(99, 64, 99) + get_of_five(5), 1000, report_of(65, 130, [(5, [*range(79, 130, 2)], [39], [77])]),
        '{"events":['
        + "".join(f'{{"invoke":["insert",5,{value}],"process":0}},{{"answer":{value - 1},"process":0}},' for value in range(40, 65))
        + '{"invoke":["get",5],"process":0},{"answer":5,"process":0}],"start":[[5,39]],"version":2}',
    ),
    # It is answered after all, and not by what it found: no past is left.
    (dead_writer(99, 64, 99) + ',{"answer":7,"process":9}', 1000, report_of(0, 129, [(5, [], [], [])]), None),
]

# From 1 at key 5 and 9 at key 9, a get misses an insert that was answered before it. After it comes a line that is not read.
MISSED_STREAM = """{"start":[[5,1],[9,9]],"version":2}
{"invoke":["insert",5,7],"process":1000}
{"invoke":["get",9],"process":2}
{"answer":1,"process":1000}
{"invoke":["get",5],"process":3}
{"answer":1,"process":3}
no line
"""
OVERLAPPING_STREAM = """{"invoke":["insert",5,7],"process":0}
{"invoke":["get",5],"process":70}
{"answer":null,"process":0}
{"answer":7,"process":70}
"""
APART_STREAM = """{"invoke":["insert",5,7],"process":0}
{"answer":null,"process":0}
{"invoke":["get",5],"process":70}
"""

# Lines that spell events otherwise than the compact form does.
SPELLED_STREAM = r""" { "invoke" : [ "get" , 5 ] , "process" : 1 }
{"process":1,"answer":null}@
{"invoke":["\u0067et",5],"process":300}
{"answer":null, "process":300}
{"process":65535,"invoke":["remove",0]}
{"process":65535,"answer":null}
{"invoke":["scan",0,18446744073709551615],"process":2}
{"answer":[],"process":2}
""".replace("@", "\r")

OVERWRITTEN_STREAM = """{"start":[[4,9]],"version":2}
{"invoke":["get",4],"process":0}
{"answer":9,"process":0}
{"invoke":["insert",4,1],"process":0}
{"invoke":["get",4],"process":1}
{"answer":1,"process":1}
{"answer":9,"process":0}
{"invoke":["get",4],"process":7}
{"answer":9,"process":7}
"""
# 7 is put at key 4 while a scan is open, where key 1 has 5 from the start.
MEANWHILE_STREAM = """{"start":[[1,5]],"version":2}
{"invoke":["scan",0,9],"process":0}
{"invoke":["insert",4,7],"process":1}
{"answer":null,"process":1}
"""

# Streams, and the status, the output and the faults.
STREAMS = [
    (OVERLAPPING_STREAM, 0, '{"calls":2,"overlap":0.50,"verdict":"yes"}\n', ""),
    (OVERLAPPING_STREAM.rstrip(), 0, '{"calls":2,"overlap":0.50,"verdict":"yes"}\n', ""),
    (
        MISSED_STREAM, 1,
        '{"call":2,"event":4,"keys":[{"invoked":[3],"key":5,"put":[0],"values":[7]}],"verdict":"no"}\n'
        '{"events":[{"invoke":["get",5],"process":0},{"answer":1,"process":0}],"start":[[5,7]],"version":2}\n', "",
    ),
    ("", 0, '{"calls":0,"overlap":0.00,"verdict":"yes"}\n', ""),
    ('{"start":[],"version":2}', 0, '{"calls":0,"overlap":0.00,"verdict":"yes"}\n', ""),
    (APART_STREAM, 0, '{"calls":2,"overlap":0.00,"verdict":"yes"}\n', APART),
    (SPELLED_STREAM, 0, '{"calls":4,"overlap":0.00,"verdict":"yes"}\n', APART),
    ('{"invoke":["get",5],"process":70}', 0, '{"calls":1,"overlap":0.00,"verdict":"yes"}\n', ""),
    # The insert found what was there at the start, while another get found what it put: so the last get misses it.
    (
        OVERWRITTEN_STREAM, 1,
        '{"call":3,"event":7,"keys":[{"invoked":[6],"key":4,"put":[2],"values":[1]}],"verdict":"no"}\n'
        '{"events":[{"invoke":["get",4],"process":0},{"answer":9,"process":0}],"start":[[4,1]],"version":2}\n', "",
    ),
    # A scan finds what was put meanwhile or not, or is refused; but what was there at the start it finds.
    (MEANWHILE_STREAM + '{"answer":[[1,5]],"process":0}\n', 0, '{"calls":2,"overlap":0.50,"verdict":"yes"}\n', ""),
    (MEANWHILE_STREAM + '{"answer":[[1,5],[4,7]],"process":0}\n', 0, '{"calls":2,"overlap":0.50,"verdict":"yes"}\n', ""),
    (MEANWHILE_STREAM + '{"answer":"refused","process":0}\n', 0, '{"calls":2,"overlap":0.50,"verdict":"yes"}\n', ""),
    (
        MEANWHILE_STREAM + '{"answer":[[4,7]],"process":0}\n', 1,
        '{"call":0,"event":3,"keys":[{"invoked":[0],"key":1,"put":[null],"values":[5]},'
        '{"invoked":[0,1],"key":4,"put":[null],"values":[null]}],"verdict":"no"}\n'
        '{"events":[{"invoke":["scan",0,9],"process":0},{"invoke":["insert",4,7],"process":1},{"answer":null,"process":1},'
        '{"answer":[[4,7]],"process":0}],"start":[[1,5]],"version":2}\n', "",
    ),
    (MEANWHILE_STREAM + '{"answer":[[4,7],[1,5]],"process":0}\n', 1, '{"call":0,"event":3,"keys":[],"verdict":"no"}\n', ""),
    # An insert into an empty map finds nothing.
    (
        '{"invoke":["insert",7,1],"process":0}\n{"answer":5,"process":0}\n', 1,
        '{"call":0,"event":1,"keys":[{"invoked":[0],"key":7,"put":[null],"values":[null]}],"verdict":"no"}\n'
        '{"events":[{"invoke":["insert",7,1],"process":0},{"answer":5,"process":0}],"version":1}\n', "",
    ),
]


def status_of(report):
    return STATUSES[json.loads(report)["verdict"]]


def names_all(calls, key, verdict):
    """A verdict that names a segment of all calls below a count, on one key."""
    return f'{{"calls":[{numbers(calls)}],"hi":{key},"lo":{key},"verdict":"{verdict}"}}'


def orders(order):
    return f'{{"order":[{order}],"verdict":"yes"}}'


def counted():
    """Events with budgets at which the configurations that count are just as many, or one more."""
    overlapping = [f'{{"invoke":["insert",0,0],"process":{process}}}' for process in range(64)]
    answers = [f'{{"answer":null,"process":{process}}}' for process in range(64)]
    seen = ['{"invoke":["get",0],"process":0},{"answer":0,"process":0}'] * 64
    # One insert alone can come first, whichever it is, and no other after it; with none taken that makes 65.
    events = ",".join(overlapping + answers + seen)
    yield events, 65, names_all(128, 0, "no")
    yield events, 64, names_all(128, 0, "undecided")
    # Each set of ten pending inserts can be taken, and none makes the get see another value.
    events = ",".join([*overlapping[:10], '{"invoke":["get",0],"process":10},{"answer":1,"process":10}'])
    yield events, 1024, names_all(11, 0, "no")
    yield events, 1023, names_all(11, 0, "undecided")
    # Each set of 61 gets can be taken.
    yield many_readers("9"), 500, names_all(62, 5, "undecided")
    # Where no call was answered the least order is that of no calls, and nothing else counts.
    yield ",".join(overlapping), 1, orders("")
    # Calls in a row have one configuration more than there are calls.
    yield gets(MOST_CALLS), 4097, orders(numbers(MOST_CALLS))
    yield gets(MOST_CALLS), 4096, names_all(MOST_CALLS, 5, "undecided")


def one_false_get(before, behind):
    """Gets that find nothing, one that finds what nobody inserted, and gets again."""
    return ",".join(filter(None, [gets(before), '{"invoke":["get",5],"process":0},{"answer":9,"process":0}', gets(behind)]))


def located():
    """Texts, a budget and the line that says where they go wrong."""
    for events, budget, line in LOCATIONS:
        yield history(events), budget, line
    # An order of these calls has more than eight configurations, so the verdict is undecided. The monitor finds one with fewer.
    yield history(many_ways(7, 3)), 8, WELL
    yield history(many_ways(2, 3)), 1000, WELL
    yield history(one_false_get(500, 1000)), 10_000, '{"call":500,"event":1001,"verdict":"no"}'
    yield history(one_false_get(0, 4095)), 10_000, '{"call":0,"event":1,"verdict":"no"}'
    yield history(one_false_get(4095, 0)), 10_000, '{"call":4095,"event":8191,"verdict":"no"}'
    yield history(gets(MOST_CALLS)), 10_000, WELL
    get = '{"invoke":["get",5],"process":0}'
    seen, missed = get + ',{"answer":7,"process":0}', get + ',{"answer":null,"process":0}'
    yield f'{{"events":[{seen},{missed},{seen}],"start":[[5,7]],"version":2}}', 1000, '{"call":1,"event":3,"verdict":"no"}'
    yield f'{{"events":[{seen}],"start":[[5,7]],"version":2}}', 1000, WELL
    yield most_starting_pairs(), 1000, '{"call":1,"event":3,"verdict":"no"}'


def most_starting_pairs():
    """As many starting pairs as there may be: a scan lists them all, and one after it none."""
    pairs, scan = pairs_listed(4096), '{"invoke":["scan",0,4095],"process":0}'
    events = f'{scan},{{"answer":[{pairs}],"process":0}},{scan},{{"answer":[],"process":0}}'
    return f'{{"events":[{events}],"start":[{pairs}],"version":2}}'


def rows():
    """Words, a text, and the status, standard output and what a terminal shows that are wanted."""
    for events, words, line in ORDERS:
        yield ["check", *words.split()], history(events), int(line != "ok"), line + "\n", ""
    for call, fitting, others in ANSWERS:
        for reply in (*fitting, *others):
            text = started(HELD, f'{{"invoke":[{call}],"process":0}},{{"answer":{reply},"process":0}}')
            line = "ok" if reply in fitting else "fault: 4 Reply at place 0"
            yield ["check", "0"], text, int(line != "ok"), line + "\n", ""
    for events, budget, report in VERDICTS:
        for workers in ("1", "2", "64"):
            words = ["judge", "--budget", str(budget), "--workers", workers]
            yield words, history(events), status_of(report), report + "\n", ""
    for events, budget, report in counted():
        for workers in ("1", "64"):
            words = ["judge", "--budget", str(budget), "--workers", workers]
            yield words, history(events), status_of(report), report + "\n", ""
    for text, order in SPELLED:
        yield ["judge"], text, 0, orders(order) + "\n", ""
    for text, budget, order in LONG:
        for workers in ("1", "4"):
            yield ["judge", "--budget", str(budget), "--workers", workers], text, 0, orders(order) + "\n", ""
    for text, budget, line in located():
        yield ["locate", "--budget", str(budget)], text, status_of(line), line + "\n", ""
    words = ["judge", "--budget", "1000", "--workers", "4"]
    yield words, most_starting_pairs(), 1, '{"calls":[0,1],"hi":4095,"lo":0,"verdict":"no"}\n', ""
    yield ["explain"], started(HELD_BY_A_SCAN, SCAN_MISSES_A_PAIR), 1, SCAN_EXPLAINED, ""
    for words, events, report in OPTIONS:
        yield words.split(), history(events), status_of(report), report + "\n", ""
    for events, calls, overlap in FOLLOWED:
        report = f'{{"calls":{calls},"overlap":{overlap},"verdict":"yes"}}\n'
        yield ["follow"], stream(events), 0, report, APART if calls > 1 and overlap == "0.00" else ""
    for events, budget, report, small in LOST:
        output = "".join(line + "\n" for line in (report, small) if line)
        yield ["follow", "--budget", str(budget)], stream(events), status_of(report), output, ""
    for text, status, output, faults in STREAMS:
        yield ["follow"], text, status, output, faults


def ordered(text, budget, line):
    """What is wrong with what `locate --order` prints of a text, of which `locate` prints this line. It is that line, and after a no or a yes an order
    of the events before the one that it names, or of all. If `judge` has an order of these, it is that one. Else there is one of which `check`
    says so, or none."""
    words, wanted, recorded = ["--budget", str(budget)], json.loads(line), json.loads(text)
    status, output, told = answer(["locate", "--order", *words], text)
    order = json.loads(output).get("order")
    exact = wanted if order is None else {**wanted, "order": order}
    if output.decode() != json.dumps(exact, sort_keys=True, separators=(",", ":")) + "\n" or status != status_of(line) or told:
        return f"{output[:200]}, and wanted is {line} with an order"
    before = json.dumps({**recorded, "events": recorded["events"][:wanted.get("event")]})
    judged = json.loads(answer(["judge", *words], before)[1])
    if judged["verdict"] == "no" or order is not None and wanted["verdict"] == "undecided":
        return f"{output[:200]}, and judge says {judged} of the events before"
    if "order" in judged and order != judged["order"] and wanted["verdict"] != "undecided":
        return f"{output[:200]}, and judge has the order {judged['order'][:50]}"
    if order is not None and answer(["check", *map(str, order)], before) != (0, b"ok\n", b""):
        return f"{output[:200]} has no order of the events before"
    return None


def by_each_part(events):
    """What is wrong with where a history goes wrong, which a verdict on each first part of it finds too."""
    listed = json.loads(f"[{events}]")
    wanted = {"verdict": "yes"}
    for count in range(1, len(listed) + 1):
        if answer(["judge", "--budget", "10000"], json.dumps({"events": listed[:count], "version": 1}))[0] == 1:
            process = listed[count - 1]["process"]
            begun = max(place for place in range(count) if "invoke" in listed[place] and listed[place]["process"] == process)
            wanted = {"call": sum("invoke" in event for event in listed[:begun]), "event": count - 1, "verdict": "no"}
            break
    status, line, told = answer(["locate", "--budget", "10000"], history(events))
    if json.loads(line) != wanted or status != STATUSES[wanted["verdict"]] or told:
        return f"{line}, and wanted is {wanted} of {events}"
    return None


def applied(call, held):
    """What a call is answered on a map of two keys, which it changes."""
    name, key, *more = call
    found = held.get(key)
    if name == "scan":
        return sorted([k, held[k]] for k in held if key <= k <= more[0])
    if name == "insert":
        held[key] = more[0]
    elif name == "remove":
        held.pop(key, None)
    return found


def on_hot_keys(seed, processes, calls):
    """The events of so many calls on two keys, a fifth of them scans. Processes take turns at random, and each call takes effect at some turn
    between its two events."""
    draw = random.Random(seed)
    held, begun, done, events, count = {}, {}, {}, [], 0
    while count < calls or begun or done:
        process = draw.randrange(processes)
        if process in done:
            events.append({"answer": done.pop(process), "process": process})
        elif process in begun:
            done[process] = applied(begun.pop(process), held)
        elif count < calls:
            count += 1
            key = draw.randrange(2)
            call = draw.choice([["get", key], ["get", key], ["insert", key, count], ["remove", key], ["scan", 0, 1]])
            begun[process] = call
            events.append({"invoke": call, "process": process})
    return events


def damaged(events, seed):
    """The same events with one answer changed: of a get, an insert or a remove."""
    draw = random.Random(seed)
    place = draw.choice([place for place, event in enumerate(events) if "answer" in event and not isinstance(event["answer"], list)])
    told = draw.choice([event["invoke"][2] for event in events if event.get("invoke", [""])[0] == "insert"])
    return [*events[:place], {**events[place], "answer": told}, *events[place + 1:]]


def located_soon(events):
    """The event at which `locate` says that these events go wrong, or None where they have an order, in ten processor seconds."""
    text = json.dumps({"events": events, "version": 1})
    words = ["sh", "-c", 'ulimit -t 10; exec "$0" locate', PROGRAM]
    return json.loads(subprocess.run(words, input=text.encode(), stdout=subprocess.PIPE, timeout=300, check=False).stdout or "{}")


def has_order(events):
    """What `judge` says of events."""
    return answer(["judge"], json.dumps({"events": events, "version": 1}))[0] == 0


def hot_keys(seed, processes, calls, copies):
    """What is wrong with the locations of a long history on two keys, and of copies with one answer changed, or None. The history has an order. A
    copy goes wrong at an event if `judge` finds an order of the events before it, and none with it."""
    events = on_hot_keys(seed, processes, calls)
    if located_soon(events) != {"verdict": "yes"}:
        return f"{seed}: {located_soon(events)}, and wanted is a yes"
    for copy in range(copies):
        wrong = damaged(events, copy)
        located = located_soon(wrong)
        event = located.get("event", -1)
        fits = has_order(wrong) if located.get("verdict") == "yes" else has_order(wrong[:event]) and not has_order(wrong[:event + 1])
        if not fits or located.get("verdict") == "undecided":
            return f"{seed}, copy {copy}: {located}"
    return None


def explained(events, budget, wanted, outside, missed):
    """What is wrong with the calls that explain a no, with who put what they read, and with what they miss."""
    text = started("", events) if "replace" in events else history(events)
    status, output, told = answer(["explain", "--budget", str(budget)], text)
    judged = answer(["judge", "--budget", str(budget)], text)
    report, *lines = output.splitlines(keepends=True)
    calls = [json.loads(line) for line in lines if line.startswith(b'{"answer"')]
    marks = {"open": "?", "left out": "!"}
    found = " ".join(f"{call['event']}{marks.get(str(call['answer']), '')}{call['reason'][0]}" for call in calls)
    origins = [json.loads(line) for line in lines if line.startswith(b'{"key"')]
    put = ", ".join(f"{origin['key']}: {origin['value']} {[call['event'] for call in origin['puts']]}" for origin in origins)
    misses = ", ".join(f"{call['event']}: {[other['event'] for other in call['misses']]}" for call in calls if "misses" in call)
    if (status, report, told) != judged or status != int(wanted is not None) or (found, put, misses) != (wanted or "", outside, missed):
        return f"{output} at {budget}, and wanted is {wanted} of {events[:300]}"
    return None


def main():
    others = [functools.partial(by_each_part, events) for events in dict.fromkeys(events for events, *_ in LOCATIONS) if events != gets(MOST_CALLS)]
    others += [functools.partial(ordered, *row) for row in located()]
    others += [functools.partial(explained, *row) for row in EXPLANATIONS]
    others += [functools.partial(hot_keys, *row) for row in HOT_KEYS]
    return compare(rows(), others)


if __name__ == "__main__":
    sys.exit(main())
