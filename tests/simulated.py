"""A build as Ninja would run it, so many commands at a time: worked out from the text of `ninja -t graph` and from measured times."""
import random

from log_lines import graph_line


def graph_text(edges, targets):
    """What `ninja -t graph` prints of these edges, each a list of inputs, one of outputs and a rule, for these targets."""
    made = {name: place for place, (_, outputs, _) in enumerate(edges) for name in outputs}
    ids, seen, lines = {}, set(), []

    def id_of(what):
        return ids.setdefault(what, b"0x%x" % (4096 + 64 * len(ids)))

    def add(name):
        if name in seen:
            return
        seen.add(name)
        lines.append(b'"%s" [label="%s"]' % (id_of(name), name))
        place = made.get(name)
        if place is None or place in seen:
            return
        seen.add(place)
        inputs, outputs, rule = edges[place]
        if len(inputs) == len(outputs) == 1:
            lines.append(b'"%s" -> "%s" [label=" %s"]' % (id_of(inputs[0]), id_of(outputs[0]), rule))
        else:
            lines.append(b'"%s" [label="%s", shape=ellipse]' % (id_of(place), rule))
            lines.extend(b'"%s" -> "%s"' % (id_of(place), id_of(it)) for it in outputs)
            lines.extend(b'"%s" -> "%s" [arrowhead=none]' % (id_of(it), id_of(place)) for it in inputs)
        for it in inputs:
            add(it)

    for name in targets:
        add(name)
    head = [b"digraph ninja {", b'rankdir="LR"', b"node [fontsize=10, shape=box, height=0.25]", b"edge [fontsize=10]"]
    return b"\n".join([*head, *lines, b"}", b""])


class Graph:
    """Which commands wait for which, by a graph's text, where each command is a time and its outputs."""

    def __init__(self, text, commands):
        self.times = [time for time, _ in commands]
        names, self.first, follows = {}, {}, {}
        for line in text.split(b"\n"):
            said = graph_line(line) or ()
            for it in {"node": said[1:2], "edge": said[1:]}.get(said[0] if said else "", ()):
                self.first.setdefault(it, len(self.first))
            if said and said[0] == "node":
                names[said[1]] = said[2]
            elif said:
                follows.setdefault(said[1], []).append(said[2])
        makes = {name: place for place, (_, outputs) in enumerate(commands) for name in outputs}
        runs = {node: makes[name] for node, name in names.items() if name in makes}
        self.places = [min((self.first[it] for it in runs if runs[it] == place), default=1 << 60) for place in range(len(commands))]

        def reached(node):
            """The commands to which a way leads from a node over nodes without commands."""
            found, met, ways = set(), set(), list(follows.get(node, ()))
            while ways:
                it = ways.pop()
                if it in runs:
                    found.add(runs[it])
                elif it not in met:
                    met.add(it)
                    ways.extend(follows.get(it, ()))
            return found

        self.behind = [set() for _ in commands]
        for node, place in runs.items():
            self.behind[place] |= reached(node)
        self.waits = [sum(place in it for it in self.behind) for place in range(len(commands))]

    def longest(self, weigh):
        """Of each command the longest chain that begins with it, where each weighs so much."""
        found = {}

        def of(place):
            if place not in found:
                found[place] = weigh(place) + max((of(it) for it in self.behind[place]), default=0)
            return found[place]

        return [of(place) for place in range(len(self.times))]

    def critical(self):
        return max(self.longest(lambda it: self.times[it]), default=0)

    def floor(self, count):
        return max(self.critical(), -(-sum(self.times) // count))

    def wall(self, count, by_path):
        """How long the commands take, if so many run at a time: that of the longest chain of commands first, or that which the graph names first."""
        chains = self.longest(lambda it: 1) if by_path else [0] * len(self.times)
        waits, now, running = list(self.waits), 0, []
        ready = [it for it in range(len(waits)) if not waits[it]]
        while ready or running:
            # A command that the graph lacks comes last: it stands in no chain.
            ready.sort(key=lambda it: (-chains[it] if self.places[it] < 1 << 60 else 0, self.places[it], it))
            while ready and len(running) < count:
                place = ready.pop(0)
                running.append((now + self.times[place], place))
            running.sort()
            now, place = running.pop(0)
            for it in self.behind[place]:
                waits[it] -= 1
                if not waits[it]:
                    ready.append(it)
        return now


def random_project(seed, count):
    """So many edges at random: compiling, linking and generating ones, some with several outputs, some phony; and the last targets."""
    rng = random.Random(seed)
    edges, names = [], [b"src/%d.c" % it for it in range(5)]
    for place in range(count):
        near = names[-rng.choice((3, 10, 1000)) :]
        inputs = rng.sample(near, min(len(near), rng.choice((1, 1, 1, 2, 3, 8))))
        outputs = [b"out/%d.%d" % (place, it) for it in range(rng.choice((1, 1, 1, 2, 3)))]
        edges.append((inputs, outputs, rng.choice((b"cc", b"cc", b"link", b"phony"))))
        names.extend(outputs)
    needed = {it for inputs, _, _ in edges for it in inputs}
    return edges, [it for _, outputs, _ in edges for it in outputs if it not in needed]
