"""The control flow graph of a program in all contexts, and what each edge does to pointers."""
from dataclasses import dataclass, field

from .reading import type_of


class Label:
    """A place that may come later, or the place of another label."""

    def __init__(self):
        self.to, self.other = None, None

    def place(self):
        return self.to if self.other is None else self.other.place()


@dataclass
class Place:
    kind: str  # a gap, or the kind of an action
    data: tuple
    ways: list  # of (way, label)


class Places:
    """The places of one function, in the order of the text."""

    def __init__(self, function):
        self.function, self.list, self.end = function, [], Label()
        self.block(function.body, self.end, None, None)
        self.end.to = len(self.list)
        self.emit("close", (function.end - 1,), [("leave", None)])

    def emit(self, kind, data, ways):
        self.list.append(Place(kind, data, ways))

    def block(self, block, after, out, again):
        for gap, item, _ in block.pieces:
            entry, behind = Label(), Label()
            self.emit("gap", (gap.number,), [("on", entry)])
            self.item(item, entry, behind, out, again)
            behind.to = len(self.list)
        self.emit("gap", (block.last_gap.number,), [("on", after)])

    def item(self, item, entry, behind, out, again):
        kind = item[0]
        if kind in ("break", "continue"):
            entry.other = out if kind == "break" else again
            return
        if kind == "if":
            return self.arms(item, entry, behind, out, again)
        if kind in ("while", "for"):
            return self.loop(item, entry, behind)
        entry.to = len(self.list)
        if kind == "nest":
            self.block(item[1], behind, out, again)
        elif kind == "declare":
            self.row(item[1], behind)
        elif kind == "assign":
            self.row([item[1]], behind)
        elif kind == "do":
            self.action_of_call(None, item[1], behind)
        else:
            self.returns(item)

    def returns(self, item):
        _, right, at = item
        value = None if right is None else right[1]
        if right is not None and right[0] == "call":
            value, behind = ("var", self.function.slot), Label()
            self.action_of_call(value, right[1], behind)
            behind.to = len(self.list)
        self.emit("return", (value, at), [("leave", None)])

    def row(self, actions, behind):
        """Declarators and assignments, one after the other."""
        for k, action in enumerate(actions):
            after = behind if k + 1 == len(actions) else Label()
            if action[0] == "unset":
                self.emit("unset", (action[1],), [("on", after)])
            elif action[3][0] == "call":
                self.action_of_call(action[1], action[3][1], after)
            else:
                self.emit("put", (action[1], action[2], action[3][1]), [("on", after)])
            if after is not behind:
                after.to = len(self.list)

    def action_of_call(self, place, call, behind):
        if call[0] == "malloc":
            self.emit("malloc", (place, call[2], call[1], call[3]), [("made", behind), ("not made", behind)])
        elif call[0] == "user":
            self.emit("call", (place[1] if place else None, call[2], call[3]), [("enter", behind)])
        else:
            self.emit("library", (place, call[1]), [("on", behind)])

    def condition(self, expr, entry, yes, no):
        if expr[0] == "unary" and expr[1] == "!":
            return self.condition(expr[2], entry, no, yes)
        if expr[0] == "binary" and expr[1] in ("&&", "||"):
            middle = Label()
            is_and = expr[1] == "&&"
            self.condition(expr[2], entry, middle if is_and else yes, no if is_and else middle)
            return self.condition(expr[3], middle, yes, no)
        entry.to = len(self.list)
        ways = [("true", yes), ("false", no)]
        if expr[0] == "const":
            ways = ways[:1] if expr[1] != 0 else ways[1:]
        return self.emit("test", (expr,), ways)

    def arms(self, item, entry, behind, out, again):
        _, arms, last = item
        for k, (test, body) in enumerate(arms):
            yes = Label()
            no = behind if k + 1 == len(arms) and last is None else Label()
            self.condition(test, entry, yes, no)
            yes.to = len(self.list)
            self.block(body, behind, out, again)
            entry = no
        if last is not None:
            entry.to = len(self.list)
            self.block(last, behind, out, again)

    def loop(self, item, entry, behind):
        if item[0] == "while":
            yes = Label()
            self.condition(item[1], entry, yes, behind)
            yes.to = len(self.list)
            return self.block(item[2], entry, behind, entry)
        _, starts, test, step, body = item
        tested, stepped, yes = Label(), Label(), Label()
        if starts:
            entry.to = len(self.list)
            self.row(starts, tested)
        else:
            entry.other = tested
        self.condition(test, tested, yes, behind)
        if step is not None:
            stepped.to = len(self.list)
            self.row([step], tested)
        else:
            stepped.other = tested
        yes.to = len(self.list)
        return self.block(body, stepped, behind, stepped)


@dataclass
class Edge:
    start: int
    way: str
    to: int
    target: object = None  # of a way back: the variable that gets the result
    deeds: list = field(default_factory=list)


class Graph:
    """Nodes context by context, then the exits. A node is (context, place), an exit (None, its offset)."""

    def __init__(self, program):
        self.program = program
        self.places = [Places(it).list for it in program.functions]
        self.contexts, self.inner = [], {}
        self.enter(program.main(), None)
        self.first, self.nodes = [], []
        for k, (function, _) in enumerate(self.contexts):
            self.first.append(len(self.nodes))
            self.nodes += [(k, it) for it in self.places[function]]
        self.edges, self.exits = [], []
        for k in range(len(self.contexts)):
            self.connect(k)
        self.nodes += [(None, at) for at in self.exits]
        self.out = [[] for _ in self.nodes]
        for it in self.edges:
            self.out[it.start].append(it)
        self.reached = self.reach()

    def enter(self, function, home):
        number = len(self.contexts)
        self.contexts.append((function, home))
        for k, callee in enumerate(self.program.functions[function].calls):
            self.inner[number, k] = len(self.contexts)
            self.enter(callee, (number, k))

    def connect(self, context):
        function, home = self.contexts[context]
        size = sum(len(self.places[it]) for it, _ in self.contexts)
        for k, place in enumerate(self.places[function]):
            start = self.first[context] + k
            for way, label in place.ways:
                if way == "enter":
                    self.edges.append(Edge(start, way, self.first[self.inner[context, place.data[2]]]))
                elif way != "leave":
                    self.edges.append(Edge(start, way, self.first[context] + label.place()))
                elif home is None:
                    self.edges.append(Edge(start, "on", size + len(self.exits)))
                    self.exits.append(place.data[-1])
                elif place.kind == "return" or self.program.functions[function].result is None:
                    self.edges.append(self.leave(start, home))

    def leave(self, start, home):
        context, call = home
        function = self.contexts[context][0]
        place = next(it for it in self.places[function] if it.kind == "call" and it.data[2] == call)
        return Edge(start, "leave", self.first[context] + place.ways[0][1].place(), place.data[0])

    def reach(self):
        seen, left = {0}, [0]
        while left:
            for edge in self.out[left.pop()]:
                if edge.to not in seen:
                    seen.add(edge.to)
                    left.append(edge.to)
        return seen


class Names:
    """Pointer variables and their pointer fields by number, sites, and puts."""

    def __init__(self, program, graph):
        self.program, self.graph = program, graph
        self.vars = [k for k, it in enumerate(program.variables) if it[1] != "int"]
        self.place = {x: k for k, x in enumerate(self.vars)}
        self.fields = [(k, f) for k, x in enumerate(self.vars) for f in self.pointer_fields(program.variables[x][1])]
        self.field_place = {it: len(self.vars) + k for k, it in enumerate(self.fields)}
        self.count = len(self.vars) + len(self.fields)
        self.sites = [v for v, (_, it) in enumerate(graph.nodes) if not isinstance(it, int) and it.kind == "malloc"]
        self.site_of = {v: k for k, v in enumerate(self.sites)}
        self.struct_of = [graph.nodes[v][1].data[2] for v in self.sites]
        self.nodes_of = {}
        for v, (context, place) in enumerate(graph.nodes):
            if context is not None and place.kind == "gap":
                self.nodes_of.setdefault(place.data[0], []).append(v)
        self.puts = [(gap.number, e) for gap, function in program.gaps if gap.number in self.nodes_of for e in self.gap_puts(gap, function)]
        self.puts_of = {}
        for k, (gap, e) in enumerate(self.puts):
            self.puts_of.setdefault(gap, []).append((k, e))

    def pointer_fields(self, ty):
        fields = self.program.structs[ty[1]][0] if isinstance(ty, tuple) else None
        return [f for f, it in enumerate(fields or []) if it[1] != "int"]

    def gap_puts(self, gap, function):
        """What may be freed at a gap: fields before variables."""
        found = [self.place[x] for x in gap.visible if x in self.place]
        inner = []
        for k in found:
            ty = self.type_at(k)
            if isinstance(ty, tuple) and self.program.structs[ty[1]][0] is not None and self.program.structs[ty[1]][1] < function.at:
                inner += [self.field_place[k, f] for f in self.pointer_fields(ty)]
        return inner + found

    def type_at(self, k):
        return self.program.variables[self.vars[k]][1]

    def base(self, e):
        """The variable of a field, or None."""
        return None if e < len(self.vars) else self.fields[e - len(self.vars)][0]

    def spelled(self, e):
        x = self.base(e)
        name = self.program.variables[self.vars[e if x is None else x]][0]
        if x is None:
            return name
        return f"{name}->{self.program.structs[self.type_at(x)[1]][0][self.fields[e - len(self.vars)][1]][0]}"


def is_null(expr):
    return expr[0] == "null" or expr[0] == "const" and expr[1] == 0


class Deeds:
    """What goes over an edge does to pointers, in order: reads, what a test says, writes."""

    def __init__(self, names):
        self.names, self.program, self.graph = names, names.program, names.graph
        for edge in self.graph.edges:
            edge.deeds = self.of_edge(edge)

    def pointer(self, expr):
        """The read by which an expression is a pointer, or None."""
        if expr[0] == "var" and expr[1] in self.names.place:
            return ("name", self.names.place[expr[1]])
        if expr[0] == "field" and type_of(self.program, expr) != "int":
            if expr[1][0] == "var":
                return ("name", self.names.field_place[self.names.place[expr[1][1]], expr[2]])
            return ("deep", type_of(self.program, expr[1])[1], expr[2])
        return None

    def value(self, expr, noted=False):
        read = self.pointer(expr)
        return self.within(expr) + ([("reads", read, noted)] if read else [])

    def based(self, expr):
        return self.value(expr) + self.followed(expr)

    def followed(self, expr):
        return [("follows", self.names.place[expr[1]])] if expr[0] == "var" and expr[1] in self.names.place else []

    def within(self, expr):
        """What the operands of an expression do; of a place, what working it out does."""
        if expr[0] in ("field", "deref"):
            return self.based(expr[1])
        if expr[0] == "index":
            return self.value(expr[1]) + self.value(expr[2]) + self.followed(expr[1])
        if expr[0] == "unary":
            return self.value(expr[2])
        if expr[0] == "binary":
            noted = expr[1] in ("==", "!=") and bool(self.pointer(expr[2]) and self.pointer(expr[3]))
            return self.value(expr[2], noted) + self.value(expr[3], noted)
        return []

    def looked(self, before, read):
        """A read as it was noted: one through a longer chain by its place among the noted ones."""
        notes = sum(1 for it in before if it[0] == "reads" and it[1][0] == "deep" and it[2])
        return read if read[0] == "name" else (*read, notes)

    def source(self, before, expr):
        if is_null(expr):
            return ("null",)
        read = self.pointer(expr)
        return ("content", self.looked(before + self.within(expr), read)) if read else None

    def written(self, place, source):
        if place is None or source is None:
            return []
        if place[0] == "var":
            return [("sets", self.names.place[place[1]], source)] if place[1] in self.names.place else []
        if place[0] == "field" and type_of(self.program, place) != "int":
            return [("sets field", self.pointer(place[1]), type_of(self.program, place[1])[1], place[2], source)]
        return []

    def says(self, expr, way):
        if expr[0] in ("var", "field"):
            return self.null_said(expr, way == "false")
        if expr[0] != "binary" or expr[1] not in ("==", "!="):
            return []
        is_equal = (way == "true") == (expr[1] == "==")
        left, right = expr[2], expr[3]
        if is_null(right):
            return self.null_said(left, is_equal)
        if is_null(left):
            return self.null_said(right, is_equal)
        one, two = self.pointer(left), self.pointer(right)
        if not (one and two):
            return []
        before = self.value(left, True)
        pair = (self.looked(self.within(left), one), self.looked(before + self.within(right), two))
        return [("equal" if is_equal else "differ", *pair)]

    def null_said(self, expr, is_so):
        read = self.pointer(expr)
        return [("null" if is_so else "not null", read[1])] if read and read[0] == "name" else []

    def of_edge(self, edge):
        context, place = self.graph.nodes[edge.start]
        kind, data = place.kind, place.data
        if kind == "unset":
            return self.written(("var", data[0]), ("undef",))
        if kind == "put":
            front = self.within(data[0])
            if data[1] != "=":
                return front + self.value(data[2])
            return front + self.value(data[2], self.pointer(data[0]) is not None) + self.written(data[0], self.source(front, data[2]))
        if kind == "malloc":
            front = (self.within(data[0]) if data[0] else []) + (self.value(data[1]) if data[1] else [])
            made = ("new", self.names.site_of[edge.start]) if edge.way == "made" else ("null",)
            return front + self.written(data[0], made)
        if kind == "library":
            return (self.within(data[0]) if data[0] else []) + [it for e in data[1] for it in self.value(e)]
        if kind == "test":
            return self.value(data[0]) + self.says(data[0], edge.way)
        if kind == "call":
            return self.entering(context, data)
        return self.leaving(edge, context, data[0] if kind == "return" else None) if kind in ("return", "close") else []

    def entering(self, context, data):
        callee = self.graph.contexts[self.graph.inner[context, data[2]]][0]
        reads, writes = [], []
        for x, expr in zip(self.program.functions[callee].params, data[1]):
            source = self.source(reads, expr)
            reads += self.value(expr, x in self.names.place)
            writes += self.written(("var", x), source)
        return reads + writes

    def leaving(self, edge, context, value):
        target = edge.target if edge.target in self.names.place else None
        found = []
        if value is not None:
            found = self.value(value, target is not None)
            found += self.written(("var", target), self.source([], value)) if target is not None else []
        if edge.way == "leave":
            function = self.program.functions[self.graph.contexts[context][0]]
            own = function.variables
            found += [("sets", self.names.place[x], ("undef",)) for x in own if x in self.names.place]
        return found
