"""Orders of the nodes of a network in which few states are held.

A node can be forgotten behind the last node that reads it. So where a node is drawn, the states are at most the product of the counts of
values of it and of those before it that are still read. A node that is observed has one value from there on.
"""
import math
import random

# How much worse, in logarithms of states, an order may be at first, on average.
FIRST_WARMTH = 0.3


def asked_for(nodes, wanted):
    """The nodes on which some nodes depend, themselves among them, in the order of the network; a cycle is refused."""
    found, open_now = set(), set()

    def visit(name):
        if name in open_now:
            raise ValueError(f"{name} depends on itself")
        if name not in found:
            open_now.add(name)
            for parent in nodes[name].parents:
                visit(parent)
            open_now.remove(name)
            found.add(name)

    for name in wanted:
        visit(name)
    return [name for name in nodes if name in found]


class Orders:
    """The nodes to be ordered, where one is asked for and some are observed."""

    def __init__(self, nodes, names, query, observed):
        self.names, self.query, self.observed = names, query, observed
        self.parents = {name: nodes[name].parents for name in names}
        self.size = {name: len(nodes[name].values) for name in names}
        self.children = {name: {child for child in names if name in nodes[child].parents} for name in names}

    def held(self, name):
        return 1 if name in self.observed else self.size[name]

    def last_reads(self, order):
        """For each node the nodes that it reads last."""
        out = {name: [] for name in order}
        reader = {}
        for name in order:
            for it in (*self.parents[name], name):
                reader[it] = name
        for name in order:
            if name != self.query:
                out[reader[name]].append(name)
        return out

    def states(self, order):
        """The most states where a node is drawn, and the states at all nodes together."""
        last, now, most, all_states = self.last_reads(order), 1, 0, 0
        for name in order:
            drawn = now * self.size[name]
            most, all_states = max(most, drawn), all_states + drawn
            now *= self.held(name)
            for it in last[name]:
                now //= self.held(it)
        return most, all_states

    def behind(self, done):
        """The states behind some nodes."""
        product = 1
        for name in done:
            if name == self.query or self.children[name] - done:
                product *= self.held(name)
        return product

    def still_needed(self, name, done):
        """The node with those on which it depends that are not done, each behind its parents."""
        out = []

        def visit(it):
            if it not in done and it not in out:
                for parent in self.parents[it]:
                    visit(parent)
                out.append(it)

        visit(name)
        return out

    def greedy(self):
        """Node by node: the one behind which, with those on which it depends, the fewest states are left."""
        order, done = [], set()
        while len(order) < len(self.names):
            ways = [self.still_needed(name, done) for name in self.names if name not in done]
            best = min(ways, key=lambda way: (self.behind(done | set(way)), len(way)))
            order += best
            done |= set(best)
        return order

    def may_move(self, order, a, b):
        """Whether the node at a may stand at b, with those between moved by one."""
        name = order[a]
        if a < b:
            return not self.children[name].intersection(order[a + 1 : b + 1])
        return not set(self.parents[name]).intersection(order[b:a])

    def exchanged(self, order, steps, seed):
        """The best order that is met where nodes are moved at random; a worse one is gone on from, less and less often."""
        chance = random.Random(seed)
        best = now = self.states(order)
        kept = order
        for step in range(steps):
            a, b = chance.randrange(len(order)), chance.randrange(len(order))
            worse = FIRST_WARMTH * (1 - step / steps) * chance.expovariate(1)
            if a == b or not self.may_move(order, a, b):
                continue
            new = order[:a] + order[a + 1 :]
            new.insert(b, order[a])
            states = self.states(new)
            if math.log(states[1]) <= math.log(now[1]) + worse:
                order, now = new, states
                if now < best:
                    best, kept = now, order
        return kept
