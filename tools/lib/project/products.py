"""Bundles in which one thing of a text could be multiplied by another, each of so many pieces."""

import json
from collections import namedtuple

# What reads such a bundle, how many pieces it may have, and the bundle of a number of pieces.
Product = namedtuple("Product", ["commands", "most", "write"])
MANY = 10**9
COMPONENTS = 256
PROPERTIES = 64
ROUNDS = 50_000
# Where threads are multiplied by something else, so much of that comes with each thread.
PER_THREAD = 256
PLACES = 9

COUNTER = """thread Counter
features
 i: in data port Base_Types::Integer;
 o: out data port Base_Types::Integer;
properties
 Dispatch_Protocol => Periodic;
end Counter;
thread implementation Counter.impl
annex behavior_specification {**
variables
 x: Base_Types::Integer;
states
 s: initial complete state;
transitions
 s -[on dispatch]-> s {x := x + i + 1; o!(x)};
**};
end Counter.impl;
"""
ROOT = """ Period => 9 ms;
 PALS_Profile::Skew => 1 ms;
 PALS_Profile::Execution => 0 ms .. 3 ms;
 PALS_Profile::Network => 1 ms .. 4 ms;
"""


def many(number, piece):
    """So many numbered pieces."""
    return "".join(map(piece, range(number)))


def put(text, place, pieces):
    """A text with pieces after the first such position."""
    before, after = text.split(place, 1)
    return before + place + pieces + after


def package(counter=COUNTER, others="", subs="", connections="", root="", scenario='{"rounds":1}'):
    """A bundle of a process, in a system, with threads of this type."""
    wired = f"connections\n{connections}" if connections else ""
    return (
        f"package Many\npublic\nwith Base_Types;\nwith PALS_Profile;\n{counter}{others}process Pair\nend Pair;\n"
        f"process implementation Pair.impl\nsubcomponents\n a: thread Counter.impl;\n{subs}{wired}end Pair.impl;\n"
        "system Top\nend Top;\nsystem implementation Top.impl\nsubcomponents\n p: process Pair.impl;\n"
        f"properties\n{ROOT}{root}end Top.impl;\nend Many;\n%%%\n{scenario}"
    ).encode()


def threads(number):
    """So many threads more."""
    return many(number, lambda n: f" t{n}: thread Counter.impl;\n")


def ports(number, direction="in"):
    """Ports of a type, named by their direction."""
    return many(number, lambda n: f" {direction}{n}: {direction} data port Base_Types::Integer;\n")


def unused(subs="", connections="", properties=""):
    """A process that nothing uses."""
    parts = (("subcomponents", subs), ("connections", connections), ("properties", properties))
    body = "".join(f"{word}\n{pieces}" for word, pieces in parts if pieces)
    return f"process Spare\nend Spare;\nprocess implementation Spare.impl\n{body}end Spare.impl;\n"


def implementations(number):
    """A thread type that nothing uses, with ports, and implementations of it."""
    rest = many(number, lambda n: f"thread implementation Spare.i{n} end Spare.i{n};\n")
    return package(others=f"thread Spare\nfeatures\n{ports(number)}end Spare;\n{rest}")


def on_processors(paths, **others):
    """A scenario with a processor for each of these lists of components, and with other fields."""
    listed = {f"c{n}": {"nanos": 1, "components": components} for n, components in enumerate(paths)}
    return json.dumps({"rounds": 1, "processors": listed, **others}, separators=(",", ":"))


def actions(number):
    """One step of many actions, in many threads."""
    counter = COUNTER.replace("o!(x)", "o!(x)" + "; x := i" * (PER_THREAD * number))
    all_threads = ["p.a", *(f"p.t{n}" for n in range(number))]
    scenario = on_processors([all_threads], properties={"halts": ["halted", "p.a"]})
    return package(counter, subs=threads(number), scenario=scenario)


def transitions(number):
    """One thread with many transitions, and many threads of it."""
    counter = put(COUNTER, "transitions\n", " s -[x > 0]-> s;\n" * (PER_THREAD * number))
    return package(counter, subs=threads(number))


def chain(number):
    """Many transitions between the states of a chain."""
    states = put(COUNTER, "states\n", many(62, lambda n: f" s{n}: state;\n"))
    states = states.replace("dispatch]-> s {", "dispatch]-> s0 {")
    between = many(number, lambda n: f" s{n % 61} -[x > {n}]-> s{n % 61 + 1};\n")
    last = many(61, lambda n: f" s{n} -[otherwise]-> s{n + 1};\n") + " s61 -[otherwise]-> s;\n"
    return package(put(states, "transitions\n", between + last))


def rounds(number):
    """A chain of states that each round passes, transitions of a state that none reaches, and as many rounds."""
    states = put(COUNTER, "states\n", many(61, lambda n: f" s{n}: state;\n") + " far: state;\n")
    passed = many(60, lambda n: f" s{n} -[]-> s{n + 1};\n") + " s60 -[]-> s;\n far -[otherwise]-> s;\n"
    counter = put(states.replace("dispatch]-> s {", "dispatch]-> s0 {"), "transitions\n", passed)
    others = many(number, lambda n: f" far -[x > {n}]-> s;\n")
    return package(put(counter, "transitions\n", others), scenario=f'{{"rounds":{number}}}')


def states(number):
    """More states than there may be, and a transition from each to the next."""
    counter = put(COUNTER, "states\n", many(number + 1, lambda n: f" s{n}: state;\n"))
    return package(put(counter, "transitions\n", many(number, lambda n: f" s{n} -[otherwise]-> s{n + 1};\n")))


def variables(number):
    """More variables than there may be, and an action with each."""
    counter = put(COUNTER, "variables\n", many(number, lambda n: f" v{n}: Base_Types::Integer;\n"))
    return package(counter.replace("o!(x)", "o!(x)" + many(number, lambda n: f"; v{n} := x")))


def nested_loops(number):
    """Loops in loops, whose variables the innermost actions name."""
    heads = many(30, lambda n: f"for (k{n}: Base_Types::Integer in 1 .. 1) {{")
    body = "; ".join(["x := k0 + k29"] * number)
    return package(COUNTER.replace("o!(x)", f"o!(x); {heads}{body}{'}' * 30}"))


def loops(number):
    """Loops one after the other, each with a loop in it."""
    body = "; for (k: Base_Types::Integer in 1 .. 1) {for (m: Base_Types::Integer in 1 .. 1) {x := k + m}}" * number
    return package(COUNTER.replace("o!(x)", f"o!(x){body}"))


def connected_ports(number):
    """A type with many ports, and connections between all of them."""
    kind = (f"thread Wide\nfeatures\n{ports(number)}{ports(number, 'out')}end Wide;\n"
            "thread implementation Wide.impl end Wide.impl;\n")
    subs = " c: thread Wide.impl;\n d: thread Wide.impl;\n"
    wires = many(number, lambda n: f" w{n}: port c.out{n} -> d.in{n};\n")
    return package(others=kind + unused(subs, wires))


def connected_threads(number):
    """Many subcomponents, each connected with the next."""
    subs = many(number + 1, lambda n: f" c{n}: thread Counter.impl;\n")
    return package(others=unused(subs, many(number, lambda n: f" w{n}: port c{n}.o -> c{n + 1}.i;\n")))


def types(number):
    """Types with an implementation each, and a subcomponent of each."""
    kinds = many(number, lambda n: f"thread T{n} end T{n};\nthread implementation T{n}.impl end T{n}.impl;\n")
    return package(others=kinds + unused(many(number, lambda n: f" c{n}: thread T{n}.impl;\n")))


def systems(number):
    """Systems that nothing uses, each in the next."""
    first = "system S0\nend S0;\nsystem implementation S0.impl\nend S0.impl;\n"
    rest = many(
        number,
        lambda n: f"system S{n + 1}\nend S{n + 1};\nsystem implementation S{n + 1}.impl\n"
        f"subcomponents\n c: system S{n}.impl;\nend S{n + 1}.impl;\n",
    )
    return package(others=first + rest)


def notes(number):
    """Properties that mean nothing."""
    return many(number, lambda n: f" Note{n} => {n};\n")


def root_notes(number):
    """Properties of the root, above all threads."""
    return package(subs=threads(number), root=notes(PER_THREAD * number))


def thread_notes(number):
    """Properties of a thread's type, below all threads."""
    counter = put(COUNTER, " Dispatch_Protocol => Periodic;\n", notes(PER_THREAD * number))
    return package(counter, subs=threads(number))


def ring(links):
    """Threads with sixteen in ports each at most, so many of which read the next threads."""
    counter = put(COUNTER, "features\n", ports(16))
    wires = many(links, lambda n: f" w{n}: port t{(n // 16 + n % 16 + 1) % 255}.o -> t{n // 16}.in{n % 16} "
                                  "{Timing => Delayed;};\n")
    return counter, threads(COMPONENTS - 1), wires


def linked(number):
    """Links between threads."""
    counter, subs, wires = ring(number)
    return package(counter, subs=subs, connections=wires, scenario='{"rounds":20}')


def faults(number):
    """Faults in one round, at all places of as many links."""
    links = -(-number // PLACES)
    counter, subs, wires = ring(links)

    def fault(n):
        link, place = divmod(n, PLACES)
        source, port = divmod(link, 16)
        reader = f'"p.t{source}.in{port}",{place % 3 + 1}'
        return f'["p.t{(source + port + 1) % 255}",{place // 3 + 1},{reader},1,[{n}]]'

    replicas = ",".join(f'"p.t{n}"' for n in range(COMPONENTS - 1))
    listed = ",".join(map(fault, range(number)))
    scenario = f'{{"rounds":3,"replicas":[{replicas}],"faults":[{listed}]}}'
    return package(counter, subs=subs, connections=wires, scenario=scenario)


def formula(leaves):
    """A formula with so many leaves."""
    if leaves == 1:
        return '["once",["halted","p.a"]]'
    return f'["or",{formula(leaves // 2)},{formula(leaves - leaves // 2)}]'


def formulas(number):
    """As many properties as there may be, with so many leaves in all."""
    listed = ",".join(f'"p{n}":{formula(-(-number // PROPERTIES))}' for n in range(PROPERTIES))
    return package(scenario=f'{{"rounds":100,"properties":{{{listed}}}}}')


def processors(number):
    """Processors with a component each."""
    scenario = on_processors([["p.a"], *([f"p.t{n}"] for n in range(number))])
    return package(subs=threads(number), scenario=scenario)


def plants(number):
    """Plants with a controller each."""
    pairs = many(number, lambda n: f" r{n}: thread Counter.impl;\n h{n}: thread Counter.impl;\n")
    wires = many(
        number,
        lambda n: f" d{n}: port r{n}.o -> h{n}.i {{Timing => Delayed;}};\n"
                  f" u{n}: port h{n}.o -> r{n}.i {{Timing => Delayed;}};\n",
    )
    listed = ",".join(f'"p.r{n}":"p.h{n}"' for n in range(number))
    return package(subs=pairs, connections=wires, scenario=f'{{"rounds":1000,"plants":{{{listed}}}}}')


def copies(number):
    """So many copies of one round in flight, as many of the next, and each of these dropped."""
    wires = " x: port a.o -> b.i {Timing => Delayed;};\n y: port b.o -> a.i {Timing => Delayed;};\n"
    rounds = [[event, node] for node in ("p.a", "p.b") for event in ("start", "finish", "send")]
    rounds += [["arrive", "p.a.i", 0], *([event, "p.a"] for event in ("start", "finish", "send"))]
    link = "p.b.i"
    events = rounds + number * [["repeat", link, 0]] + number * [["repeat", link, 1]] + number * [["drop", link, 1]]
    scenario = json.dumps({"rounds": 2, "events": events}, separators=(",", ":"))
    return package(subs=" b: thread Counter.impl;\n", connections=wires, scenario=scenario)


PRODUCTS = {
    "ports x implementations": Product(["check"], MANY, implementations),
    "types x names": Product(["check"], MANY, types),
    "actions x threads": Product(["check", "sync", "watch", "vote", "fuse", "budget"], COMPONENTS - 1, actions),
    "transitions x threads": Product(["check", "sync"], COMPONENTS - 1, transitions),
    "states x transitions": Product(["check"], MANY, chain),
    "states x transitions x rounds": Product(["sync"], ROUNDS, rounds),
    "states x names": Product(["check"], MANY, states),
    "variables x names": Product(["check"], MANY, variables),
    "names x scopes": Product(["check"], MANY, nested_loops),
    "loops x loops": Product(["check"], MANY, loops),
    "ports x connections": Product(["check"], MANY, connected_ports),
    "subcomponents x connections": Product(["check"], MANY, connected_threads),
    "systems x systems": Product(["check"], MANY, systems),
    "properties x components": Product(["check"], COMPONENTS - 1, root_notes),
    "properties x threads": Product(["check"], COMPONENTS - 1, thread_notes),
    "links x components": Product(["check", "sync", "run", "vote"], 4080, linked),
    "faults x links": Product(["vote"], 4080 * PLACES, faults),
    "formulas x properties": Product(["watch"], 300 * PROPERTIES, formulas),
    "processors x components": Product(["budget"], COMPONENTS - 1, processors),
    "plants x links": Product(["fuse"], COMPONENTS // 2 - 1, plants),
    "copies x drops": Product(["world --loose"], 10**6 // 3 - 10, copies),
}
