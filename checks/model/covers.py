"""The cover problem of a program, whether a choice is a cover, the search for one, and the edited text."""
from .facts import Facts, May
from .graphs import Deeds, Graph, Names
from .marks import Derived, Marks
from .reading import read


class Problem:
    """What a choice of puts has to meet. A choice is a set of numbers of puts."""

    def __init__(self, text):
        self.program = read(text)
        self.graph = Graph(self.program)
        self.names = Names(self.program, self.graph)
        Deeds(self.names)
        may, facts = May(self.names), Facts(self.names)
        self.facts = facts
        self.derived = Derived(self.names, Marks(self.names, may, facts))
        held = {k for _, _, it in self.derived.triples for k in it}
        self.usable = {k for k in held - self.derived.forbidden if self.is_allowed(k)}
        exits = [(mark[0], v, held) for v, mark, held in self.derived.triples if self.graph.nodes[v][0] is None]
        self.exits = sorted({(site, v, held & self.usable) for site, v, held in exits}, key=lambda it: (it[0], it[1], sorted(it[2])))
        self.sets = {held & self.usable for _, _, held in self.derived.triples} - {frozenset()}
        self.apart = {k: set() for k in self.usable}
        for j, k in [*self.derived.pairs, *((j, k) for it in self.sets for j in it for k in it if j < k)]:
            if j in self.usable and k in self.usable:
                self.apart[j].add(k)
                self.apart[k].add(j)

    def is_allowed(self, k):
        gap, e = self.names.puts[k]
        x = self.names.base(e)
        if x is None:
            due = {("ready", e)}
        else:
            due = {("ready", x), ("full", x), ("filled", x, self.names.fields[e - len(self.names.vars)][1])}
        return all(due <= self.facts.at[v] for v in self.names.nodes_of[gap])

    def alone(self):
        """The site and the exit of an object that nothing can free there, or None."""
        return next(((site, v) for site, v, held in self.exits if not held), None)

    def is_cover(self, choice):
        if not choice <= self.usable or any(self.apart[k] & choice for k in choice):
            return False
        return all(len(choice & held) == 1 for _, _, held in self.exits)

    def covers(self):
        """Covers, one after the other: those without a put that no exit needs come first."""
        exits = sorted({held for _, _, held in self.exits}, key=lambda it: (len(it), sorted(it)))
        yield from self.search(exits, frozenset(), frozenset(self.usable))

    def search(self, exits, chosen, left):
        open_sets = [it for it in exits if not it & chosen]
        if not open_sets:
            yield chosen
            for k in sorted(left):
                yield from self.search(exits, chosen | {k}, frozenset(it for it in left - self.apart[k] if it > k))
            return
        least = min(open_sets, key=lambda it: len(it & left))
        for k in sorted(least & left, reverse=True):
            yield from self.search(exits, chosen | {k}, left - self.apart[k] - {k})
            left -= {k}

    # The program's own frees.

    def put_of(self, gap, expr):
        """The number of the put that a free is, or None."""
        names = self.names
        e = None
        if expr[0] == "var":
            e = names.place.get(expr[1])
        elif expr[0] == "field" and expr[1][0] == "var":
            e = names.field_place.get((names.place[expr[1][1]], expr[2]))
        return next((k for k, it in names.puts_of.get(gap, ()) if it == e), None)

    def own(self):
        """The choice that the program's own frees are, or None where they are none."""
        found = set()
        for gap, _ in self.program.gaps:
            puts = [self.put_of(gap.number, expr) for expr, _ in gap.frees]
            if None in puts or puts != sorted(set(puts)):
                return None
            found |= set(puts)
        return frozenset(found)

    def solve(self):
        """The program's own frees where they are a cover, else some cover, or None."""
        own = self.own()
        if own is not None and self.is_cover(own):
            return own
        return next(self.covers(), None)

    # The edited text.

    def edited(self, choice):
        edits = Edits(self, choice)
        for function in self.program.functions:
            edits.block(function.body)
        return edits.text()


class Edits:
    def __init__(self, problem, choice):
        self.problem, self.choice, self.blanks, self.inserts = problem, choice, [], []

    def new(self, gap):
        """What is written into a gap, or None where it stays."""
        names = self.problem.names
        old = [self.problem.put_of(gap.number, expr) for expr, _ in gap.frees]
        new = [k for k, _ in names.puts_of.get(gap.number, ()) if k in self.choice]
        return None if old == new else [f" free({names.spelled(names.puts[k][1])}); " for k in new]

    def gap(self, gap, at):
        new = self.new(gap)
        if new is not None:
            self.blanks += [span for _, spans in gap.frees for span in spans]
            self.inserts += [(at, it) for it in new]

    def block(self, block):
        gaps = [gap for gap, _, _ in block.pieces] + [block.last_gap]
        braces = not block.braced and any(self.new(gap) for gap in gaps)
        if braces:
            self.inserts.append((block.start, " { "))
        for gap, item, at in block.pieces:
            self.gap(gap, at)
            for inner in blocks_of(item):
                self.block(inner)
        self.gap(block.last_gap, block.end - 1 if block.braced else block.end)
        if braces:
            self.inserts.append((block.end, " } "))

    def text(self):
        text = self.problem.program.text
        made = list(text)
        for start, end in self.blanks:
            made[start:end] = " " * (end - start)
        pieces, last = [], 0
        for at, new in sorted(self.inserts, key=lambda it: it[0]):
            pieces += ["".join(made[last:at]), new]
            last = at
        return "".join(pieces) + "".join(made[last:])


def blocks_of(item):
    if item[0] == "nest":
        return [item[1]]
    if item[0] == "if":
        return [it for _, it in item[1]] + ([item[2]] if item[2] else [])
    return [item[-1]] if item[0] in ("while", "for") else []


def place(text, at):
    """The line and the column of an offset."""
    return text.count("\n", 0, at) + 1, at - text.rfind("\n", 0, at)


def repaired(text):
    """The status, the output and the line on standard error of `repair` for a text of the language within the limits, with
    one of the covers where there are several."""
    problem = Problem(text)
    alone = problem.alone()
    if alone:
        site, node = alone
        line, column = place(text, problem.graph.nodes[problem.names.sites[site]][1].data[3])
        last = place(text, problem.graph.nodes[node][1])[0]
        return 3, "", f"memfix: line {line}, column {column}: no free fits this object on the way to the exit at line {last}\n"
    choice = problem.solve()
    if choice is None:
        return 3, "", "memfix: no choice of frees covers every object exactly once\n"
    return 0, problem.edited(choice), ""
