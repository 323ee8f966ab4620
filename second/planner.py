"""A plan over a network, a second time: what the job program and the grid program must print.

The rules leave one thing free: which of several cheapest routes is used. So there are two modes, which share the steps that a load leaves and
the checks of refusals, and nothing else.

One run: the rules, call by call, with one permitted choice of route. Losing rings and the first potentials come from taking places out of the
network one by one; distances and prices from Dijkstra's method over costs that the potentials make non-negative. Beside a run goes what every
permitted run prints alike ("told"); on tiny networks all permitted runs are gone through, with distances by Floyd and Warshall ("every").

The optimum: where a settle must end, with no route of the rules. A load is found by augmenting along routes of the fewest steps (Edmonds and
Karp) and made cheapest by cancelling losing rings (found by Bellman and Ford). Tiny networks are also decided by listing all loads.

    python3 second/planner.py job  < FILE       what the job program prints, by one permitted run
    python3 second/planner.py grid < FILE       what the grid program prints
    python3 second/planner.py told job < FILE   the same, with ? for what the choice of routes leaves open (or: told grid)
    python3 second/planner.py every job < FILE  each line with all its readings, for tiny networks (or: every grid)
    python3 second/planner.py selftest          the methods against each other, on tiny random networks

Costs are pairs (redraws, misfit) of whole numbers of any size; a grid's cost is a pair whose first part is 0.
"""

import heapq
import itertools
import random
import struct
import sys
import time
from collections import Counter, deque, namedtuple

sys.dont_write_bytecode = True

import jobfile

MOST_PLACES, MOST_WAYS, MOST_LIMIT, MOST_WEIGHT = 1024, 3000, 1_000_000, 1_000_000
MOST_AMOUNT, MOST_BUDGET, MOST_REST = 1_000_000, 1_000_000, 10**9
MOST_RECORDS = 1024
TINY = 12

Way = namedtuple("Way", "tail head limit cost")
Net = namedtuple("Net", "places ways")
Step = namedtuple("Step", "start end cost room way sign")
Call = namedtuple("Call", "name numbers offset")
Job = namedtuple("Job", "net calls shown most_rest", defaults=(MOST_REST,))

FREE = "?"


# Costs

NOTHING = (0, 0)


def plus(a, b):
    return (a[0] + b[0], a[1] + b[1])


def less(a, b):
    return (a[0] - b[0], a[1] - b[1])


def times(n, a):
    return (n * a[0], n * a[1])


# Networks and loads


def steps_of(net, load):
    """The steps that a load leaves: ahead with the room below the limit, back with the load."""
    found = []
    for k, way in enumerate(net.ways):
        if load[k] < way.limit:
            found.append(Step(way.tail, way.head, way.cost, way.limit - load[k], k, 1))
        if load[k] > 0:
            found.append(Step(way.head, way.tail, less(NOTHING, way.cost), load[k], k, -1))
    return found


def cost_of(net, load):
    total = NOTHING
    for way, x in zip(net.ways, load):
        total = plus(total, times(x, way.cost))
    return total


def leaving_of(net, load):
    """The net amount leaving each place."""
    leaving = [0] * net.places
    for way, x in zip(net.ways, load):
        leaving[way.tail] += x
        leaving[way.head] -= x
    return leaving


def traced(last, start, end):
    """The route from start to end, from the last step to each place."""
    route, place = [], end
    while place != start:
        route.append(last[place])
        place = last[place].start
    return route[::-1]


def send_along(load, route, amount):
    for step in route:
        load[step.way] += step.sign * amount


# Refusals


class Refused(Exception):
    def __init__(self, number, way=None):
        self.number, self.way = number, way

    def text(self, offset):
        return f"refused {self.number} at {offset}" + ("" if self.way is None else f" way {self.way}")


def way_refusal(net, way):
    if way.tail >= net.places or way.head >= net.places:
        return 3
    if way.tail == way.head:
        return 4
    if way.limit > MOST_LIMIT:
        return 5
    if max(abs(part) for part in way.cost) > MOST_WEIGHT:
        return 6
    return None


def check_network(net):
    if not 1 <= net.places <= MOST_PLACES:
        raise Refused(1)
    if len(net.ways) > MOST_WAYS:
        raise Refused(2)
    for k, way in enumerate(net.ways):
        number = way_refusal(net, way)
        if number is not None:
            raise Refused(number, k)


def check_booking(net, start, end, amount):
    if start >= net.places or end >= net.places:
        raise Refused(8)
    if start == end:
        raise Refused(9)
    if not 1 <= amount <= MOST_AMOUNT:
        raise Refused(10)


def check_budget(budget):
    if not 1 <= budget <= MOST_BUDGET:
        raise Refused(11)


# Least costs by taking places out


def lower(table, key, cost):
    if key not in table or cost < table[key]:
        table[key] = cost
        return True
    return False


def take_out(v, into, out):
    """Lead every pair of a step into v and a step out of v past it; answers whether no ring through v loses."""
    for u, a in into[v].items():
        for w, b in out[v].items():
            cost = plus(a, b)
            if u == w and cost < NOTHING:
                return False
            if u != w and lower(out[u], w, cost):
                into[w][u] = cost
    for u in into[v]:
        del out[u][v]
    for w in out[v]:
        del into[w][v]
    return True


def least_costs(places, steps):
    """The least cost of all routes that end at each place; None if some ring costs less than zero.

    The places are taken out as unknowns are from equations, the one with the fewest pairs of steps first, and put back in the other order."""
    into, out = [{} for _ in range(places)], [{} for _ in range(places)]
    for step in steps:
        lower(into[step.end], step.start, step.cost)
        lower(out[step.start], step.end, step.cost)
    price, order, gone = [NOTHING] * places, [], set()
    heap = [(len(into[v]) * len(out[v]), v) for v in range(places)]
    heapq.heapify(heap)
    while heap:
        pairs, v = heapq.heappop(heap)
        if v in gone or pairs != len(into[v]) * len(out[v]):
            continue
        for w, cost in out[v].items():
            price[w] = min(price[w], plus(price[v], cost))
        if not take_out(v, into, out):
            return None
        gone.add(v)
        order.append(v)
        for u in set(into[v]) | set(out[v]):
            heapq.heappush(heap, (len(into[u]) * len(out[u]), u))
    for v in reversed(order):
        for u, cost in into[v].items():
            price[v] = min(price[v], plus(price[u], cost))
    return price


# Least costs by Dijkstra's method


def leaving_steps(places, steps):
    leaving = [[] for _ in range(places)]
    for step in steps:
        leaving[step.start].append(step)
    return leaving


def cheapest(places, steps, potential, starts):
    """The least cost of a route to each place reached from the starts, each with a cost of its own, and the last step of one such route.

    Every step's cost, with the potential of its start added and that of its end taken, is zero or more."""
    leaving = leaving_steps(places, steps)
    cost, last, done = dict(starts), {}, set()
    heap = [(less(cost[v], potential[v]), v) for v in starts]
    heapq.heapify(heap)
    while heap:
        _, u = heapq.heappop(heap)
        if u in done:
            continue
        done.add(u)
        for step in leaving[u]:
            if lower(cost, step.end, plus(cost[u], step.cost)):
                last[step.end] = step
                heapq.heappush(heap, (less(cost[step.end], potential[step.end]), step.end))
    return cost, last


# The plan: one permitted run

Found = namedtuple("Found", "start end route amount most steps costs")


class Plan:
    """Made closed. A call that is refused raises Refused and alters nothing."""

    def __init__(self, net, most_rest=MOST_REST):
        self.net, self.is_open, self.most_rest = net, False, most_rest

    def open(self):
        check_network(self.net)
        self.load, self.rests = [0] * len(self.net.ways), [0] * self.net.places
        self.potential = least_costs(self.net.places, steps_of(self.net, self.load))
        if self.potential is None:
            raise Refused(7)
        self.is_open = True

    def need_open(self):
        if not self.is_open:
            raise Refused(30)

    def book(self, start, end, amount):
        self.need_open()
        check_booking(self.net, start, end, amount)
        if self.rests[start] + amount > self.most_rest or self.rests[end] - amount < -self.most_rest:
            raise Refused(32)
        self.rests[start] += amount
        self.rests[end] -= amount

    def find(self):
        """What a route would send; an answer in words if it sends nothing."""
        if not any(self.rests):
            return "settled"
        start = min(v for v, rest in enumerate(self.rests) if rest > 0)
        steps = steps_of(self.net, self.load)
        costs, last = cheapest(self.net.places, steps, self.potential, {start: NOTHING})
        ends = [(costs[v], v) for v, rest in enumerate(self.rests) if rest < 0 and v in costs]
        if not ends:
            return f"blocked {start}"
        _, end = min(ends)
        route = traced(last, start, end)
        most = min(self.rests[start], -self.rests[end])
        return Found(start, end, route, min([most] + [step.room for step in route]), most, steps, costs)

    def send(self, found):
        send_along(self.load, found.route, found.amount)
        self.rests[found.start] -= found.amount
        self.rests[found.end] += found.amount
        self.potential = [self.new_potential(found, v) for v in range(self.net.places)]

    def new_potential(self, found, v):
        """The cost from the start, but no farther, in costs made non-negative, than the end."""
        farthest = plus(self.potential[v], less(found.costs[found.end], self.potential[found.end]))
        return min(farthest, found.costs.get(v, farthest))

    def route(self):
        self.need_open()
        found = self.find()
        if isinstance(found, str):
            return found
        self.send(found)
        return f"sent {found.amount} from {found.start} to {found.end}"

    def settle(self, budget):
        self.need_open()
        check_budget(budget)
        for count in range(budget):
            found = self.find()
            if isinstance(found, str):
                return f"{count} {found}"
            self.send(found)
        return f"{budget} " + ("unfinished" if any(self.rests) else "settled")

    def total(self):
        self.need_open()
        return cost_of(self.net, self.load)

    def prices(self):
        self.need_open()
        costs, _ = cheapest(self.net.places, steps_of(self.net, self.load), self.potential, dict.fromkeys(range(self.net.places), NOTHING))
        return [costs[v] for v in range(self.net.places)]


def costs_line(job, name, costs):
    return " ".join([name] + [job.shown(cost) for cost in costs])


def answer(job, plan, call):
    """The line of one call."""
    if call.name == "open":
        plan.open()
        return "open"
    if call.name == "book":
        plan.book(*call.numbers)
        return "booked"
    if call.name == "route":
        return plan.route()
    if call.name == "settle":
        return plan.settle(*call.numbers)
    if call.name == "total":
        return costs_line(job, "total", [plan.total()])
    return costs_line(job, "prices", plan.prices())


def run(job):
    """The lines of one permitted run."""
    plan, lines = Plan(job.net, job.most_rest), []
    for call in job.calls:
        try:
            lines.append(answer(job, plan, call))
        except Refused as refused:
            lines.append(refused.text(call.offset))
    return lines


# What every permitted run prints alike


def only_load(net, load, potential):
    """Whether no other load with the same net amounts costs as little: no ring of cost zero but there and back along one way.

    The ways on such a ring have cost zero once the potentials are added. Those with steps both ways are joined to clumps, which must be trees;
    the others then must not lead round from clump to clump."""
    clump, single = list(range(net.places)), []

    def clump_of(v):
        while clump[v] != v:
            clump[v] = v = clump[clump[v]]
        return v

    for way, x in zip(net.ways, load):
        if way.limit == 0 or plus(way.cost, potential[way.tail]) != potential[way.head]:
            continue
        if x == 0:
            single.append((way.tail, way.head))
        elif x == way.limit:
            single.append((way.head, way.tail))
        elif clump_of(way.tail) == clump_of(way.head):
            return False
        else:
            clump[clump_of(way.tail)] = clump_of(way.head)
    return no_round(net.places, [(clump_of(u), clump_of(v)) for u, v in single])


def no_round(places, arrows):
    """Whether no arrows lead from a place back to it."""
    after, entering = [[] for _ in range(places)], [0] * places
    for u, v in arrows:
        after[u].append(v)
        entering[v] += 1
    ready = [v for v in range(places) if entering[v] == 0]
    for v in ready:
        for w in after[v]:
            entering[w] -= 1
            if entering[w] == 0:
                ready.append(w)
    return len(ready) == places


def spread(arrows, start):
    """The places that arrows lead to from the start."""
    after = {}
    for u, v in arrows:
        after.setdefault(u, []).append(v)
    met, waiting = {start}, [start]
    while waiting:
        for v in after.get(waiting.pop(), ()):
            if v not in met:
                met.add(v)
                waiting.append(v)
    return met


def cheapest_steps(found):
    """The steps of all cheapest routes from the start to the end, and perhaps some more that lie on rings of cost zero."""
    costs = found.costs
    tight = [s for s in found.steps if s.start in costs and plus(costs[s.start], s.cost) == costs[s.end]]
    ahead = spread([(s.start, s.end) for s in tight], found.start)
    back = spread([(s.end, s.start) for s in tight], found.end)
    return [s for s in tight if s.start in ahead and s.end in back]


def only_route(found, tight):
    """Whether there is one cheapest route: any other one leaves out some step of it."""
    entering = Counter(step.end for step in tight)
    if all(entering[step.end] == 1 for step in found.route):
        return True
    for step in found.route:
        if found.end in spread([(s.start, s.end) for s in tight if s is not step], found.start):
            return False
    return True


class Teller:
    """Goes with a run, and says how much of each line every permitted run prints alike.

    known: the net amounts and the rests are the same in every permitted run. While they are not, each rest is from low to high, and booked says
    whether something was booked since. same_load: the load is the same too. lost: it is not even known what was booked."""

    def __init__(self, job):
        self.job, self.plan = job, Plan(job.net, job.most_rest)
        self.known, self.same_load, self.booked, self.lost = True, True, False, False
        self.single = all(way.limit <= 1 for way in job.net.ways)

    def lines(self):
        return [self.line(call) for call in self.job.calls]

    def line(self, call):
        try:
            if self.known or not self.plan.is_open:
                return self.known_line(call)
            return self.unknown_line(call)
        except Refused as refused:
            return refused.text(call.offset)

    def known_line(self, call):
        if call.name == "route" and self.plan.is_open:
            return self.route()
        if call.name == "settle" and self.plan.is_open:
            return self.settle(*call.numbers)
        return answer(self.job, self.plan, call)

    def route(self):
        found = self.plan.find()
        if isinstance(found, str):
            return found
        told = self.amount_told(found)
        if not told:
            self.forget()
        self.plan.send(found)
        return f"sent {found.amount if told else FREE} from {found.start} to {found.end}"

    def amount_told(self, found):
        """Whether every permitted run sends the same now; notes whether all have one load after it. Yes is sure; no may be too careful."""
        same = self.same_load or only_load(self.plan.net, self.plan.load, self.plan.potential)
        tight = cheapest_steps(found)
        self.same_load = same and only_route(found, tight)
        if self.same_load or self.single or found.most == 1:
            return True
        return same and all(step.room >= found.most for step in tight)

    def forget(self):
        """From the next route on, the net amounts are not known: each rest may be anything between zero and what it is."""
        self.known, self.booked, self.same_load = False, False, False
        self.low, self.high = list(self.plan.rests), list(self.plan.rests)
        self.loosen()

    def loosen(self):
        self.low = [min(rest, 0) for rest in self.low]
        self.high = [max(rest, 0) for rest in self.high]

    def settle(self, budget):
        check_budget(budget)
        for count in range(budget):
            found = self.plan.find()
            if isinstance(found, str):
                return f"{count} {found}"
            if not self.amount_told(found):
                self.forget()
                return self.finish(budget - count)
            self.plan.send(found)
        return f"{budget} " + ("unfinished" if any(self.plan.rests) else "settled")

    def finish(self, budget):
        """A settle whose number of routes is free."""
        enough = budget >= sum(max(rest, 0) for rest in self.high)
        end = self.plan.settle(budget).split()[1:]
        self.loosen()
        if self.lost or not enough:
            return FREE
        self.known = end[0] == "settled" or not self.booked
        if self.known:
            return " ".join([FREE] + end)
        return f"{FREE} blocked {FREE}"

    def unknown_line(self, call):
        if call.name == "book":
            return self.book(*call.numbers)
        if call.name == "settle":
            check_budget(*call.numbers)
            return self.finish(*call.numbers)
        if call.name == "route":
            self.plan.route()
            self.loosen()
        return FREE

    def book(self, start, end, amount):
        check_booking(self.job.net, start, end, amount)
        most = self.job.most_rest
        if self.lost:
            return FREE
        if self.low[start] + amount > most or self.high[end] - amount < -most:
            raise Refused(32)
        if self.high[start] + amount > most or self.low[end] - amount < -most:
            self.lost = True
            return FREE
        self.plan.book(start, end, amount)
        self.booked = True
        for rests in (self.low, self.high):
            rests[start] += amount
            rests[end] -= amount
        return "booked"


def told(job):
    return Teller(job).lines()


def fits(pattern, line):
    if pattern == FREE:
        return True
    words, others = pattern.split(" "), line.split(" ")
    return len(words) == len(others) and all(w in (FREE, o) for w, o in zip(words, others))


# Every permitted run, on tiny networks


class TooMany(Exception):
    pass


def all_distances(places, steps):
    """Floyd and Warshall: the least cost of a route from each place to each, None if there is none. No ring may lose."""
    far = [[NOTHING if u == v else None for v in range(places)] for u in range(places)]
    for s in steps:
        if far[s.start][s.end] is None or s.cost < far[s.start][s.end]:
            far[s.start][s.end] = s.cost
    for m, u, v in itertools.product(range(places), repeat=3):
        if far[u][m] is not None and far[m][v] is not None:
            cost = plus(far[u][m], far[m][v])
            if far[u][v] is None or cost < far[u][v]:
                far[u][v] = cost
    return far


def cheapest_routes(leaving, far, route, met, end):
    """All ways to go on with a route, whose places are met, to the end at the least cost."""
    here = met[-1]
    if here == end:
        yield list(route)
        return
    for step in leaving[here]:
        rest = far[step.end][end]
        if step.end not in met and rest is not None and plus(step.cost, rest) == far[here][end]:
            yield from cheapest_routes(leaving, far, route + [step], met + [step.end], end)


class EveryRun:
    """The states, pairs of loads and rests, that the permitted runs may be in; TooMany if they are more than the cap."""

    def __init__(self, job, cap):
        self.job, self.net, self.cap, self.memory = job, job.net, cap, {}

    def lines(self):
        """The set of readings of each line."""
        plan = Plan(self.net)
        try:
            plan.open()
        except Refused:
            return [{line} for line in run(self.job)]
        if self.net.places > TINY:
            raise TooMany
        states = {(tuple(plan.load), tuple(plan.rests))}
        sets = [{"open"}]
        for call in self.job.calls[1:]:
            readings = self.after_all(states, call)
            sets.append({line for line, _ in readings})
            states = {state for _, state in readings}
        return sets

    def after_all(self, states, call):
        try:
            if call.name == "settle":
                check_budget(*call.numbers)
                return self.settle(states, *call.numbers)
            return {reading for state in states for reading in self.after(state, call)}
        except Refused as refused:
            return {(refused.text(call.offset), state) for state in states}

    def after(self, state, call):
        if call.name == "route":
            return self.route(state)
        if call.name == "book":
            return {self.book(state, call)}
        return {(self.question(state, call), state)}

    def book(self, state, call):
        load, rests = state
        plan = Plan(self.net, self.job.most_rest)
        plan.is_open, plan.load, plan.rests = True, list(load), list(rests)
        check_booking(self.net, *call.numbers)
        try:
            plan.book(*call.numbers)
            return "booked", (load, tuple(plan.rests))
        except Refused as refused:
            return refused.text(call.offset), state

    def question(self, state, call):
        load, _ = state
        if call.name == "total":
            return costs_line(self.job, "total", [cost_of(self.net, load)])
        far = all_distances(self.net.places, steps_of(self.net, load))
        return costs_line(self.job, "prices", [min(row[v] for row in far if row[v] is not None) for v in range(self.net.places)])

    def route(self, state):
        if state not in self.memory:
            if len(self.memory) >= self.cap:
                raise TooMany
            self.memory[state] = set(itertools.islice(self.routes(state), self.cap))
            if len(self.memory[state]) == self.cap:
                raise TooMany
        return self.memory[state]

    def routes(self, state):
        load, rests = state
        if not any(rests):
            yield "settled", state
            return
        start = next(v for v, rest in enumerate(rests) if rest > 0)
        steps = steps_of(self.net, load)
        far = all_distances(self.net.places, steps)
        ends = [v for v, rest in enumerate(rests) if rest < 0 and far[start][v] is not None]
        if not ends:
            yield f"blocked {start}", state
            return
        end = min(ends, key=lambda v: far[start][v])
        for route in cheapest_routes(leaving_steps(self.net.places, steps), far, [], [start], end):
            amount = min([rests[start], -rests[end]] + [step.room for step in route])
            yield f"sent {amount} from {start} to {end}", after_sending(state, route, start, end, amount)

    def settle(self, states, budget):
        readings = set()
        for count in range(budget):
            sent = set()
            for state in states:
                for line, after in self.route(state):
                    if line.startswith("sent"):
                        sent.add(after)
                    else:
                        readings.add((f"{count} {line}", state))
            if not sent:
                return readings
            states = sent
        return readings | {(f"{budget} " + ("unfinished" if any(rests) else "settled"), (load, rests)) for load, rests in states}


def after_sending(state, route, start, end, amount):
    load, rests = list(state[0]), list(state[1])
    send_along(load, route, amount)
    rests[start] -= amount
    rests[end] += amount
    return tuple(load), tuple(rests)


def every_run(job, cap=3000):
    """The set of readings of each line over all permitted runs; None if there are too many states."""
    try:
        return EveryRun(job, cap).lines()
    except TooMany:
        return None


def forced(job, cap=3000):
    """The lines, if every permitted run prints the same ones; None if not, or if it was not found out."""
    lines = told(job)
    if not any(FREE in line for line in lines):
        return lines
    sets = every_run(job, cap)
    if sets is None or any(len(readings) > 1 for readings in sets):
        return None
    return [line for (line,) in sets]


# The optimum: where a settle ends, without any route of the rules


def fewest_steps(net, load, start, end):
    """A route of the fewest steps; None if there is none."""
    leaving = leaving_steps(net.places, steps_of(net, load))
    last, waiting = {start: None}, deque([start])
    while waiting and end not in last:
        for step in leaving[waiting.popleft()]:
            if step.end not in last:
                last[step.end] = step
                waiting.append(step.end)
    return traced(last, start, end) if end in last else None


def fill(net, load, start, end, most):
    """Sends up to the most from start to end, whatever it costs; answers how much went."""
    sent = 0
    while sent < most:
        route = fewest_steps(net, load, start, end)
        if route is None:
            break
        amount = min([most - sent] + [step.room for step in route])
        send_along(load, route, amount)
        sent += amount
    return sent


def meeting(net, leaving):
    """A load with these net amounts; None if there is none."""
    source, sink = net.places, net.places + 1
    ways = [Way(source, v, x, NOTHING) if x > 0 else Way(v, sink, -x, NOTHING) for v, x in enumerate(leaving)]
    wide = Net(net.places + 2, list(net.ways) + ways)
    load, due = [0] * len(wide.ways), sum(x for x in leaving if x > 0)
    if sum(leaving) != 0 or fill(wide, load, source, sink, due) < due:
        return None
    return load[: len(net.ways)]


def add_all(a, b):
    return tuple(x + y for x, y in zip(a, b))


def find_losing(places, steps, zero):
    """A ring that costs less than zero, or None: relaxing from everywhere at once, and following the last steps back."""
    cost, last, changed = [zero] * places, [None] * places, None
    for _ in range(places + 1):
        changed = None
        for step in steps:
            reached = add_all(cost[step.start], step.cost)
            if reached < cost[step.end]:
                cost[step.end], last[step.end], changed = reached, step, step.end
        if changed is None:
            return None
    place = changed
    for _ in range(places):
        place = last[place].start
    ring = [last[place]]
    while ring[-1].start != place:
        ring.append(last[ring[-1].start])
    return ring


def priced_steps(net, load, costs):
    """The steps of a load, with costs of any length."""
    steps = steps_of(net, load)
    return [step._replace(cost=tuple(step.sign * part for part in costs[step.way])) for step in steps]


def cancel(net, load, costs):
    """Makes the load one of the least cost among those with its net amounts."""
    zero = tuple(0 for _ in costs[0]) if costs else NOTHING
    ring = find_losing(net.places, priced_steps(net, load, costs), zero)
    while ring is not None:
        send_along(load, ring, min(step.room for step in ring))
        ring = find_losing(net.places, priced_steps(net, load, costs), zero)


def least_load(net, leaving):
    """A load of the least cost among those with these net amounts; None if there is none."""
    load = meeting(net, leaving)
    if load is not None:
        cancel(net, load, [way.cost for way in net.ways])
    return load


def end_of_settle(net, leaving, rests):
    """Where every settle with budget enough ends: the place it is blocked at or None, the net amounts then, and a load of least cost.

    A collector is joined to the places in want, with their wants as limits. As much as can be goes there from the places with something left,
    lowest first, up to the first that is not emptied. Among these loads the cheapest is the end; among equals the one that gives the least to
    the highest place in want, then to the next lower, and so on."""
    wants = [v for v, rest in enumerate(rests) if rest < 0]
    wide = Net(net.places + 1, list(net.ways) + [Way(v, net.places, -rests[v], NOTHING) for v in wants])
    load, stuck = meeting(net, leaving) + [0] * len(wants), None
    for v, rest in enumerate(rests):
        if rest > 0 and fill(wide, load, v, net.places, rest) < rest:
            stuck = v
            break
    base = sum(load[len(net.ways) :]) + 1
    costs = [way.cost + (0,) for way in net.ways] + [NOTHING + (base**i,) for i in range(len(wants))]
    cancel(wide, load, costs)
    load = load[: len(net.ways)]
    return stuck, leaving_of(net, load), load


# The optimum once more, by listing all loads of a tiny network


def all_loads(net):
    return itertools.product(*(range(way.limit + 1) for way in net.ways))


def leads(leaving, due, moved):
    """Whether the net amounts change by what is due; where less than zero is due, by that or by less of it."""
    changes = [new - old for new, old in zip(moved, leaving)]
    return all(change == x if x >= 0 else x <= change <= 0 for change, x in zip(changes, due))


def listed_end(net, leaving, rests, loads):
    """The same as end_of_settle, from a list of all loads with their net amounts: the blocked place, the net amounts, the cost."""
    due, stuck = [min(rest, 0) for rest in rests], None
    for v in (v for v, rest in enumerate(rests) if rest > 0):
        sends = (due[:v] + [x] + due[v + 1 :] for x in range(rests[v], -1, -1))
        due = next(some for some in sends if any(leads(leaving, some, moved) for _, moved in loads))
        if due[v] < rests[v]:
            stuck = v
            break
    wants = [v for v in reversed(range(net.places)) if rests[v] < 0]
    ends = (one for one in loads if leads(leaving, due, one[1]))
    load, moved = min(ends, key=lambda one: (cost_of(net, one[0]), [-one[1][v] for v in wants]))
    return stuck, list(moved), cost_of(net, load)


# The programs


def records(file):
    """Offset, name and numbers of each record of a good file."""
    for found in jobfile.ANY.finditer(file):
        name = jobfile.NAMES[found[0][0]]
        yield found.start(), name, struct.unpack(jobfile.KINDS[name][1], found[0][1:])


def read_job(file):
    ways, calls, places = [], [Call("open", (), 0)], 0
    for offset, name, numbers in records(file):
        if name == "head":
            places = numbers[0]
        elif name == "way":
            ways.append(Way(*numbers[:3], numbers[3:]))
        else:
            calls.append(Call(name, numbers, offset))
    return Job(Net(places, ways), calls, "{0[0]} {0[1]}".format)


def grid_network(groups, lasts):
    collector = len(groups) + len(lasts)
    ways = [
        Way(i, len(groups) + j, count, (0, abs(foot - length)))
        for i, (foot, count) in enumerate(groups)
        for j, (length, _) in enumerate(lasts)
    ]
    ways += [Way(len(groups) + j, collector, stock, NOTHING) for j, (_, stock) in enumerate(lasts)]
    return Net(collector + 1, ways)


def read_grid(file):
    tables, offsets = {"group": [], "last": []}, []
    for offset, name, numbers in records(file):
        tables[name].append(numbers)
        if name == "group":
            offsets.append(offset)
    groups, lasts = tables["group"][:MOST_RECORDS], tables["last"][:MOST_RECORDS]
    calls = [Call("open", (), 0)]
    for i, (_, count) in enumerate(groups):
        if count > 0:
            calls.append(Call("book", (i, len(groups) + len(lasts), count), offsets[i]))
    calls += [Call("settle", (MOST_BUDGET,), 0), Call("total", (), 0)]
    return Job(grid_network(groups, lasts), calls, "{0[1]}".format)


def printed(form, file, method):
    """What a program prints over a file, by a method that gives the lines of a job; None if that gives none."""
    fault = jobfile.first_fault(form, file)
    if fault is not None:
        return "file {} at {}\n".format(*fault)
    job = read_job(file) if form == jobfile.JOB else read_grid(file)
    lines = method(job)
    return None if lines is None else "".join(line + "\n" for line in lines)


def every_lines(job):
    sets = every_run(job)
    return ["too many runs"] if sets is None else [" | ".join(sorted(readings)) for readings in sets]


# Selftest: the methods against each other


PARTS = ((0,), (0, 1), (0, 1, 2), (-2, -1, 0, 1, 2, 3), (-9, 5, 7, 8, 11, 40))


def random_network(dice, places, ways):
    """Of so many places and ways; costs of few sizes make ties, and those below zero make rings."""
    redraws, misfits, most = dice.choice(((0,), (0, 0, 0, 1, -1))), dice.choice(PARTS), dice.choice((1, 2, 3, 4))
    found = []
    for _ in range(ways):
        tail, head = dice.sample(range(places), 2)
        found.append(Way(tail, head, dice.randint(0, most) or dice.randint(0, most), (dice.choice(redraws), dice.choice(misfits))))
    return Net(places, found)


def random_calls(dice, places, most):
    """Bookings of up to the most, routes, and settles with budgets that are enough or not."""
    calls = [Call("open", (), 0)]
    for _ in range(dice.randint(1, 4)):
        for _ in range(dice.randint(0, 3)):
            calls.append(Call("book", (*dice.sample(range(places), 2), dice.randint(1, most)), 1))
        name = dice.choice(("settle", "settle", "settle", "route"))
        calls.append(Call(name, (dice.choice((1, 2, 100, 100)),) if name == "settle" else (), 2))
        calls += [Call("total", (), 3), Call("prices", (), 4)]
    return calls


def random_job(dice, net, most):
    """Some have a bound on rests that a few bookings reach."""
    return Job(net, random_calls(dice, net.places, most), "{0[0]} {0[1]}".format, dice.choice((MOST_REST, MOST_REST, most + 2)))


def all_rings(net):
    """The costs of all rings at load zero, by going along every route."""
    leaving = leaving_steps(net.places, steps_of(net, [0] * len(net.ways)))

    def onward(first, here, met, cost):
        for step in leaving[here]:
            if step.end == first:
                yield plus(cost, step.cost)
            elif step.end not in met:
                yield from onward(first, step.end, met | {step.end}, plus(cost, step.cost))

    return [cost for v in range(net.places) for cost in onward(v, v, {v}, NOTHING)]


def check_rings(net):
    """Taking out, all pairs, and the list of all rings agree whether some ring loses, and on the prices if none does."""
    steps = steps_of(net, [0] * len(net.ways))
    price, far = least_costs(net.places, steps), all_distances(net.places, steps)
    losing = any(cost < NOTHING for cost in all_rings(net))
    assert losing == (price is None)
    assert losing == any(far[v][v] < NOTHING for v in range(net.places))
    assert losing == (find_losing(net.places, steps, NOTHING) is not None)
    if not losing:
        assert price == [min(row[v] for row in far if row[v] is not None) for v in range(net.places)]
    return not losing


def listed(net):
    return [(load, tuple(leaving_of(net, load))) for load in all_loads(net)]


def check_same_prices(net, loads):
    """All loads of the least cost with the same net amounts leave the same distances; only_load tells when there is one."""
    best = {}
    for load, moved in loads:
        best.setdefault(moved, []).append((cost_of(net, load), load))
    for moved, some in best.items():
        least = min(cost for cost, _ in some)
        equals = [load for cost, load in some if cost == least]
        distances = [all_distances(net.places, steps_of(net, load)) for load in equals]
        assert all(far == distances[0] for far in distances)
        price = [min(row[v] for row in distances[0] if row[v] is not None) for v in range(net.places)]
        assert all(only_load(net, load, price) == (len(equals) == 1) for load in equals)
        assert cost_of(net, least_load(net, moved)) == least


def check_least(plan, booked):
    """The load keeps every limit and accounts for what was booked, and by the potentials no ring of its steps loses."""
    net = plan.net
    assert all(0 <= x <= way.limit for way, x in zip(net.ways, plan.load))
    assert booked == [x + rest for x, rest in zip(leaving_of(net, plan.load), plan.rests)]
    for step in steps_of(net, plan.load):
        assert plus(step.cost, plan.potential[step.start]) >= plan.potential[step.end]


def check_end(plan, budget, loads):
    """A settle with budget enough ends where the optimum says, and the list of all loads if it is given."""
    net, leaving, rests = plan.net, leaving_of(plan.net, plan.load), list(plan.rests)
    line = plan.settle(budget)
    stuck, moved, load = end_of_settle(net, leaving, rests)
    assert line.split()[1:] == (["settled"] if stuck is None else ["blocked", str(stuck)])
    assert moved == leaving_of(net, plan.load) and cost_of(net, load) == plan.total()
    assert least_costs(net.places, steps_of(net, load)) == plan.prices()
    assert loads is None or (stuck, moved, plan.total()) == listed_end(net, leaving, rests, loads)
    return line


def check_run(job, loads=None, optimum=True):
    """One run, with every load on the way checked to be least, and every settle with budget enough by the optimum if that is wanted.

    Answers the run's lines and how many settles were compared."""
    plan, booked, lines, ends = Plan(job.net, job.most_rest), [0] * job.net.places, [], 0
    for call in job.calls:
        try:
            if optimum and enough(plan, call):
                lines.append(check_end(plan, call.numbers[0], loads))
                ends += 1
            else:
                lines.append(answer(job, plan, call))
            if call.name == "book":
                booked[call.numbers[0]] += call.numbers[2]
                booked[call.numbers[1]] -= call.numbers[2]
            check_least(plan, booked)
        except Refused as refused:
            lines.append(refused.text(call.offset))
    return lines, ends


def enough(plan, call):
    """Whether the call is a settle that goes on until it is settled or blocked."""
    return (
        call.name == "settle"
        and plan.is_open
        and call.numbers[0] <= MOST_BUDGET
        and call.numbers[0] >= max(1, sum(rest for rest in plan.rests if rest > 0))
    )


def check_told(job):
    """Every permitted run fits what is told, and the one run is among them. Answers whether all print the same, and whether that is told."""
    sets, patterns, lines = every_run(job, 20000), told(job), run(job)
    if sets is None:
        return None
    for readings, pattern, line in zip(sets, patterns, lines, strict=True):
        assert line in readings
        assert all(fits(pattern, reading) for reading in readings)
    return all(len(readings) == 1 for readings in sets), not any(FREE in pattern for pattern in patterns)


def check_tiny(dice, counts):
    net = random_network(dice, dice.choice((2, 3, 3, 3, 4, 5)), dice.randint(1, 8))
    counts["tiny networks"] += 1
    if not check_rings(net):
        return
    loads = listed(net) if product(way.limit + 1 for way in net.ways) <= 1500 else None
    if loads is not None and len(loads) <= 150:
        check_same_prices(net, loads)
        counts["with all loads listed"] += 1
    for most in (4, 2):
        job = random_job(dice, net, most)
        counts["settles"] += check_run(job, loads)[1]
        single = check_told(job)
        if single is not None:
            counts["jobs"] += 1
            counts["jobs with one output"] += single[0]
            counts["jobs told to have one"] += single[1]


def check_middling(dice, counts):
    """Larger networks: the run against the optimum alone."""
    net = random_network(dice, dice.randint(6, 20), dice.randint(12, 60))
    counts["middling networks"] += 1
    if least_costs(net.places, steps_of(net, [0] * len(net.ways))) is not None:
        counts["settles"] += check_run(random_job(dice, net, 6))[1]


def product(numbers):
    result = 1
    for n in numbers:
        result *= n
    return result


def selftest(seconds):
    """Goes on with random networks until there are enough or the time is up, and prints how many of what were met."""
    dice, begun, counts = random.Random(17), time.monotonic(), Counter()
    for form, file in ((jobfile.JOB, jobfile.TWO_STUDIES), (jobfile.GRID, jobfile.ONE_GROUP)):
        assert printed(form, file, run) == printed(form, file, forced) == EXAMPLES[form]
    while counts["tiny networks"] < 6000 and time.monotonic() - begun < seconds:
        check_tiny(dice, counts)
        if counts["tiny networks"] % 10 == 0:
            check_middling(dice, counts)
    for name, count in sorted(counts.items()):
        print(f"{count} {name}")


EXAMPLES = {
    jobfile.JOB: "open\nbooked\nbooked\n3 settled\ntotal 1 11\nprices -1 -6 -1 -7 -1 -5 0 0 0 0\nbooked\n1 blocked 1\ntotal 2 18\n",
    jobfile.GRID: "open\nbooked\n2 settled\ntotal 70\n",
}


def main(arguments):
    methods = {(): run, ("told",): told, ("every",): every_lines}
    if arguments == ["selftest"]:
        selftest(50)
    elif arguments and arguments[-1] in (jobfile.JOB, jobfile.GRID) and tuple(arguments[:-1]) in methods:
        sys.stdout.write(printed(arguments[-1], sys.stdin.buffer.read(), methods[tuple(arguments[:-1])]))
    else:
        sys.stderr.write(__doc__)
        return 2
    return 0


if __name__ == "__main__":
    sys.exit(main(sys.argv[1:]))
