"""The times of chains, tried on worlds made at random: each value is followed from its sample to the output."""

import random
import tempfile

from lib.language.listing import read_listing
from lib.language.model import Model, declared_in, root_of
from lib.proving.latency import Flow, chains_of
from lib.running.clocks import Clock
from lib.running.random_designs import adaptor_of, period_of
from lib.running.rows import Report
from lib.running.timed import Times, World
from tests.common import EXAMPLES, Wrong, built, expect, tool
from tests.nodes import MORE, listing_of, pals

ROUNDS = 6
RATES = ((1,), (1, 2), (1, 2, 4), (1, 3, 6), (1, 2, 8))


def design_of(chance):
    """The text of a design with a chain of threads that pass on the values that they read."""
    rates = chance.choice(RATES)
    skew, unit = chance.randint(1, 40), chance.choice((1, 10, 1000))
    execution, network = (sorted(chance.randint(0, 60) * unit for _ in range(2)) for _ in range(2))
    period = period_of(chance, rates, skew * unit, execution, network)
    nodes = [chance.choice(rates) for _ in range(chance.randint(1, 4))]
    threads, wires, source = [], [], 1
    for at, rate in enumerate(nodes):
        adaptor = adaptor_of(chance, source, rate, "Integer")
        adaptor = "latest" if adaptor == "average" else adaptor
        props = [] if at == 0 else ["Timing => Delayed;"]
        props += [f'PALS_Profile::Input_Adaptor => "{adaptor}";'] if adaptor and at else []
        first = "port in -> t0.i" if at == 0 else f"port t{at - 1}.o -> t{at}.i"
        wires.append(f" c{at}: {first.replace('port in', 'port x')}{' {' + ' '.join(props) + '}' if props else ''};")
        threads.append(f" t{at}: thread K.impl {{Period => {period // rate} ns;}};")
        source = rate
    adaptor = adaptor_of(chance, 1, nodes[0], "Integer")
    props = f' {{PALS_Profile::Input_Adaptor => "{adaptor}";}}' if adaptor else ""
    ports = "features x: in data port Base_Types::Integer; y: out data port Base_Types::Integer;"
    return "\n".join([
        "package Made public", "with Base_Types, PALS_Profile;", "thread K",
        "features i: in data port Base_Types::Integer; o: out data port Base_Types::Integer;",
        "properties Dispatch_Protocol => Periodic;", "end K;", "thread implementation K.impl",
        "annex behavior_specification {**", "states s: initial complete state;", "transitions",
        " s -[on dispatch]-> s {o!(i)};", "**};", "end K.impl;", "process P", ports, "end P;",
        "process implementation P.impl", "subcomponents", *threads, "connections", *wires,
        f" d: port t{len(nodes) - 1}.o -> y;", "end P.impl;", "system Top", ports, "end Top;",
        "system implementation Top.impl", "subcomponents p: process P.impl;", "connections",
        f" e: port x -> p.x{props};", " f: port p.y -> y;", "properties", f" Period => {period} ns;",
        f" PALS_Profile::Skew => {skew * unit} ns;",
        f" PALS_Profile::Execution => {execution[0]} ns .. {execution[1]} ns;",
        f" PALS_Profile::Network => {network[0]} ns .. {network[1]} ns;", "end Top.impl;", "end Made;", ""])


def shown_in(text):
    """The round of the sample that each step of the output shows; None before the first one."""
    status, answer = pals(["sync", "Top.impl"], text,
                          {"rounds": ROUNDS, "inputs": {"x": list(range(1, ROUNDS + 1))}})
    if status:
        raise Wrong(f"sync ends with {status}: {answer}\n{text}")
    return [[int(it) - 1 if it not in ("_", "0") else None for it in row.outs[0][1]] for row in Report(answer).rows]


def moments(model, times):
    """When each node starts its rounds, and finishes its steps, in a world."""
    starts, ends, now, steps = {}, {}, 0, {}
    for event in World(model, ROUNDS, times).events():
        if event[0] == "pass":
            now = event[1]
        elif event[0] == "start":
            starts.setdefault(event[1], []).append(now)
        elif event[0] == "finish":
            number = steps.get(event[1], 0)
            steps[event[1]] = number + 1
            ends.setdefault(event[1], []).append(now)
    return starts, ends


def measured(model, times, shown):
    """The ages and the reactions in a world."""
    starts, ends = moments(model, times)
    first, last = model.threads[0], model.threads[-1]
    rate, ages, reactions, newest = len(shown[0]), [], [], -1
    for number, places in enumerate(shown):
        for at, sample in enumerate(places):
            end = ends[last][number * rate + at]
            if sample is None:
                continue
            ages.append(end - starts[first][sample])
            if sample > newest and newest >= 0:
                reactions += [end - starts[first][newest], end - starts[first][sample]]
            newest = max(newest, sample)
    return ages, reactions


class TurningClock:
    """A clock that is ahead by one offset until a time, and by another one after that, as soon as it can be without
    going back."""

    def __init__(self, before, after, turn):
        self.before, self.after, self.turn = before, after, turn

    def reading(self, at):
        """What it reads at a time."""
        if at <= self.turn:
            return max(at + self.before, 0)
        return max(at + self.after, self.turn + self.before, 0)

    def first(self, target):
        """The first time at which it reads a target or more."""
        if target <= self.turn + self.before:
            return target - self.before
        return max(self.turn + 1, target - self.after)


def random_times(chance, model):
    """Times at random within the bounds."""
    bounds = model.bounds
    clocks = {path: Clock(chance.randint(1 - bounds.skew, bounds.skew - 1),
                          chance.choice((0, 0, chance.randint(-10**8, 10**8))), bounds.skew)
              for path in model.threads}
    return Times(clocks.get, lambda *_: chance.randint(bounds.shortest, bounds.longest),
                 lambda *_: chance.randint(bounds.fastest, bounds.slowest))


def end_times(model, sign):
    """Several times that together make age and reaction of a chain as large (1) or as small (-1) as they can be: the
    first node is ahead and the last one behind, or the other way round. If they are one node, its clock turns."""
    bounds, threads = model.bounds, model.threads
    ahead = sign * (bounds.skew - 1)
    took = bounds.longest if sign > 0 else bounds.shortest
    if len(threads) == 1:
        clocks = [TurningClock(ahead, -ahead, (number + 1) * model.period - ahead) for number in range(ROUNDS)]
        return [Times(lambda _, it=it: it, lambda *_: took, lambda *_: bounds.fastest) for it in clocks]
    clocks = {path: TurningClock(offset, offset, 0) for path, offset in [(it, -ahead) for it in threads[1:]]}
    clocks[threads[0]] = TurningClock(ahead, ahead, 0)
    return [Times(clocks.get, lambda *_: took, lambda *_: bounds.fastest)]


def found_in(model, several, shown):
    """All ages and all reactions in several worlds."""
    found = [measured(model, times, shown) for times in several]
    return [age for ages, _ in found for age in ages], [it for _, reactions in found for it in reactions]


def expect_within(times, found, text):
    """Stops if an age or a reaction is outside of its bounds."""
    for (least, most), values, what in zip((times.age, times.reaction), found, ("ages", "reactions")):
        expect(all(least <= it <= most for it in values), True, f"{times}, {what} {values}\n{text}")


def test_latencies_hold_and_are_reached():
    """No age and no reaction of a world lies outside of its bounds; each bound is reached but for two nanoseconds. The
    adaptors min and max may drop the value that is followed, so their lower bounds need not be reached."""
    reached = {"one node": 0, "several nodes": 0}
    for seed in range(1000 if MORE else 150):
        chance = random.Random(f"latency {seed}")
        text = design_of(chance)
        model = Model(declared_in(text.encode()), root_of(declared_in(text.encode()), None))
        design = read_listing(listing_of(text))
        chain = next(it for it in chains_of(design) if it.source == "x")
        times, shown = Flow(design, chain).times(), shown_in(text)
        if times is None:
            expect(all(it is None for places in shown for it in places), True, f"nothing gets through\n{text}")
            continue
        worlds = [[random_times(chance, model)], end_times(model, 1), end_times(model, -1)]
        anyhow, largest, smallest = (found_in(model, it, shown) for it in worlds)
        for found in (anyhow, largest, smallest):
            expect_within(times, found, text)
        if largest[1] and '"min"' not in text and '"max"' not in text:
            ends = [most - max(it) for (_, most), it in zip((times.age, times.reaction), largest)]
            ends += [min(it) - least for (least, _), it in zip((times.age, times.reaction), smallest)]
            expect(all(0 <= it <= 2 for it in ends), True, f"the ends of {times} are reached but for {ends}\n{text}")
            reached["one node" if len(chain.components) == 1 else "several nodes"] += 1
    expect(all(it > 20 for it in reached.values()), True, f"designs whose ends were reached: {reached}")


def test_latency_requirements():
    """A requirement holds or is broken, by times computed by hand: 2 rounds of 40 ms, skew and execution."""
    words = ["--program", built(), "--code", built("pals_code"), f"{EXAMPLES}/pacemaker.aadl"]
    most = 2 * 40_000_000 + 2 * (100_000 - 1) + 2_000_000
    for limit, status in ((most, 0), (most - 1, 1)):
        found, text, said = tool("latency", "--within", f"beat->pace={limit}ns", *words)
        last = text.decode().split()[-1]
        expect((found, last), (status, "broken" if status else "kept"), said)
    expect(tool("latency", "--within", "pace->beat=1ms", *words)[0], 1, "no such chain")
    expect(tool("latency", "--within", "pace=1ms", *words)[0], 2, "no arrow")
    with tempfile.TemporaryDirectory() as folder:
        expect(tool("latency", *words[:4], f"{folder}/none.aadl")[0], 1, "no such file")
