"""The forms of the program's answers."""

import re

NUMBER = r"[0-9]{1,40}"
FINDING = re.compile(rf"(?P<line>{NUMBER}):(?P<column>{NUMBER}) (?P<number>{NUMBER}) (?P<name>\w+)(?: "
                     rf"(?P<details>.*))?")
FAULT = re.compile(
    rf"flat (?P<number>{NUMBER}) (?P<name>\w+)(?: (?P<what>(?!\d+:)\S+))?(?: (?P<line>{NUMBER}):(?P<column>{NUMBER}))?"
)
STOP = re.compile(rf"stop (early) (\S+) ({NUMBER}) ({NUMBER}|_)|stop missed (\S+) ({NUMBER}) ({NUMBER}|_) "
                  rf"(not-sent|in-transit|lost)")
TEXT = re.compile(rf"text (?P<line>{NUMBER}):(?P<column>{NUMBER}) (?P<name>\w+)")
SCENARIO = re.compile(r"(?s)scenario (?P<name>[A-Z]\w+)(?: (?P<what>.*))?")
EVENT = re.compile(rf"event (?P<index>{NUMBER}) (?P<name>\w+)(?P<details>(?: \S+)*)")
CLOCK = re.compile(rf"clock ended (?P<path>\S+) (?P<target>{NUMBER})")
WRONG = re.compile(rf"wrong (?P<index>{NUMBER}) (?P<rule>\w+)")
CODE = re.compile(rf"code (?P<path>\S+) (?P<number>{NUMBER})")
SOUND = re.compile(rf"sound rounds {NUMBER} stop (?:none|\S+ {NUMBER})")
RING = re.compile(rf"ring {NUMBER} rounds {NUMBER} messages {NUMBER} sum -?{NUMBER}")
WATCHED = re.compile(rf"watch rounds (?P<rounds>{NUMBER}) first (?P<name>\w+)(?: (?P<round>{NUMBER}))?")
PROCESSOR = re.compile(rf"processor (?P<name>\w+) sum (?P<sum>{NUMBER}) of (?P<most>{NUMBER}) (?P<fits>fits|over)")
CHECK_LINE = re.compile(
    rf"accepted|(?:period|least|backoff) {NUMBER}|shortest (?:{NUMBER}|none)|component \S+ rate {NUMBER}|"
    rf"(?:link|input|output) \S+ -> \S+(?: \S.*)?|ignored \S+"
)
# Answers of one line that are a refusal or a verdict: the kind of each, its form, and its status.
ONE_LINE = [
    ("text", TEXT, 3),
    ("fault", FAULT, 4),
    ("scenario", SCENARIO, 5),
    ("event", EVENT, 5),
    ("clock", CLOCK, 7),
    ("wrong", WRONG, 1),
    ("code", CODE, 13),
    ("usage", re.compile(r"usage: pals(?:_code)? .*"), 2),
    ("unread", re.compile(r"read fault"), 9),
    ("unread", re.compile(r"too long"), 12),
    ("sound", SOUND, 0),
    ("ring", RING, 0),
]
