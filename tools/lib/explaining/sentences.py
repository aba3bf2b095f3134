"""Each rejection in a sentence. $1 is its first detail, $2ms its second one as a time."""

import re

from ..commands.times import in_ms

# Faults of a text that is not in the language.
TEXT_FAULTS = {
    "NotUtf8": "this byte is not UTF-8",
    "BadByte": "no token of the language begins with this byte",
    "OpenString": "the string that begins here has no closing quote on its line",
    "OpenAnnex": "the annex that begins here has no closing **}",
    "BigNumber": "the number is above 9223372036854775807",
    "LongName": "the word has more than 64 bytes",
    "Syntax": "unexpected token: no text of the language begins like this",
    "TooDeep": "this opener makes the text nested more than 64 deep",
    "NoDivider": "the bundle ends, and no line is exactly %%%",
}

# Faults of the package, by number.
FAULTS = {
    1: "there is no system implementation of the root's name",
    2: "$1 is not declared",
    3: "$1 is declared again",
    4: "the kind of this name or value does not fit its position",
    5: "$1 contains the implementation in which it appears",
    6: "the connection $1 has an open end: nothing feeds it, or nothing reads it",
    7: "$1 is a second connection into one port",
    8: "there are too many of these: $1",
}

# Findings on the instance, by number.
FINDINGS = {
    1: "the type does not fit here",
    2: "the thread $1 is not dispatched periodically",
    3: "the root has no Period",
    4: "the period of $1, $2ms, is 0 or does not divide the root's, $3ms",
    5: "$1 would execute $2 steps in a round, and the maximum is 64",
    6: "the link to $1 joins the rates $2 and $3, of which neither divides the other",
    7: "the link to $1 lacks Timing => Delayed",
    8: "the connection $1 has an end at an own port, and Timing => Delayed",
    9: "the link to $1 joins two rates, and has no PALS_Profile::Input_Adaptor",
    10: "the adaptor of $1 has no meaning here",
    11: "the adaptor at $1 does not exist, or is not allowed for these rates or this type",
    12: "there is not exactly one initial state that is complete",
    13: "the state $1 needs one transition on dispatch if it is complete, and otherwise zero",
    14: "the state $1 can block, or has a transition after `otherwise`",
    15: "the state $1 is on a cycle of states that are not complete",
    16: "the root has no PALS_Profile::$1",
    17: "the lower end of $1 is above its upper end, or a skew is 0",
    18: "the period, $1ms, is below the minimum that the bound allows, $2ms",
    19: "the loop executes more than 1,000 iterations, or more than 10,000 with the loops around it",
    20: "the time $1 is above one hour",
}

# Faults of a scenario.
SCENARIO_FAULTS = {
    "NotJson": "the scenario is not valid JSON",
    "Field": "$1 is missing",
    "WrongKind": "wrong type or unknown form of value at $1",
    "Unknown": "unknown field, or a name that the design does not have: $1",
    "OutOfRange": "a number or a count is out of range at $1, or a name is not allowed there",
    "TooBig": "the run would produce $1 values, and the maximum is 1,000,000: ask for fewer rounds",
}

# Events that are refused. Those of two forms have one for a node and one for a message.
EVENT_FAULTS = {
    "BadName": "the event has an unknown name, or too many or too few readings",
    "LossOrRepeat": "the network of a timed world loses and repeats no message",
    "TimeBack": "time would go back to $1ms",
    "ClockBack": "the clock of $1 would go back to $2ms",
    "ClockApart": "the clock of $1 would read $2ms, which is off by the skew or more",
    "WrongPhase": "$1 cannot do this now",
    "NoSuchMessage": "no message of round $2 is in flight to $1",
    "NotDue": "$1 may do this once its clock reads $2ms, and it reads $3ms",
    "PastDeadline": ("time passes $2ms, the last allowed time for the next action of $1",
                     "time passes $3ms, the last allowed time for the message of round $2 to arrive at $1"),
    "TooSoon": ("the step of $1 may finish from $2ms on", "the message of round $2 may arrive at $1 from $3ms on"),
}

# Stops of a run.
STOPS = {
    "early": "the message of round $2 arrived at $1 before that round had started there",
    "not-sent": "a start needs the message of round $2 at $1, and its source has not sent it",
    "in-transit": "a start needs the message of round $2 at $1, and it is still in flight",
    "lost": "a start needs the message of round $2 at $1, and all copies are lost",
}

# A clock of a run that has ended.
CLOCK_ENDED = "the clock of $1 has no further reading of $2ms or more, for which $1 waits"

# What is wrong with a line of a trace, by the rule that it breaks.
TRACE_RULES = {
    "row": "this row is not the composition's",
    "text": "this is not a journal line, it has an unknown name, or it has no reading",
    "order": "this event is not allowed now, or has another round, step or result",
    "reading": "the clock of this node has shown a later reading before",
    "alarm": "this is too soon: the clock of the node reads less than the alarm",
    "release": "this is sent too soon: the clock of the node reads less than the release",
    "due": "the message is not due yet, or one that is due to this node has not arrived",
    "stop": "this stop is wrong, or a stop is missing here",
    "unfinished": "the trace ends here, without a stop, and a node has not finished all its rounds",
    "count": "there are more or fewer rows than rounds that all nodes have finished",
}


def sentence(form, details):
    """A sentence with its details put in."""

    def detail(match):
        number = int(match.group(1))
        found = details[number - 1] if number <= len(details) else "?"
        return in_ms(found) if match.group(2) and found.lstrip("-").isdigit() else found

    return re.sub(r"\$(\d)(ms)?", detail, form)
