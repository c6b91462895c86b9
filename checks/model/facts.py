"""Which sites flow where, and which facts hold on every path to a node."""


class May:
    """The least sites of each pointer variable and of each field of a site that are closed under all writes."""

    def __init__(self, names):
        self.names, self.vars, self.fields = names, [set() for _ in names.vars], {}
        is_new = True
        while is_new:
            before = self.size()
            for edge in names.graph.edges:
                for deed in edge.deeds:
                    self.write(deed)
            is_new = self.size() > before

    def size(self):
        return sum(map(len, self.vars)) + sum(map(len, self.fields.values()))

    def found(self, read):
        """The sites of what is read."""
        if read[0] == "deep":
            sites = [t for t, it in enumerate(self.names.struct_of) if it == read[1]]
            return {s for t in sites for s in self.fields.get((t, read[2]), ())}
        if read[1] < len(self.vars):
            return self.vars[read[1]]
        x, f = self.names.fields[read[1] - len(self.vars)]
        return {s for t in self.vars[x] for s in self.fields.get((t, f), ())}

    def of(self, source):
        if source[0] == "new":
            return {source[1]}
        return self.found(source[1][:3]) if source[0] == "content" else set()

    def write(self, deed):
        if deed[0] == "sets":
            self.vars[deed[1]] |= self.of(deed[2])
        elif deed[0] == "sets field":
            _, base, struct, f, source = deed
            for t in list(self.found(base)):
                if self.names.struct_of[t] == struct and self.of(source):
                    self.fields.setdefault((t, f), set()).update(self.of(source))


class Facts:
    """The facts of each node: ("ready", x), ("full", x), ("filled", x, f), ("equal", x, y) and ("apart", x, y) with x < y."""

    def __init__(self, names):
        self.names, self.graph = names, names.graph
        many = range(len(names.vars))
        self.all = {(kind, x) for x in many for kind in ("ready", "full")}
        self.all |= {("filled", *it) for it in names.fields}
        self.all |= {(kind, x, y) for x in many for y in many if x < y for kind in ("equal", "apart")}
        self.at = [set(self.all) for _ in self.graph.nodes]
        self.at[0] = {it for it in self.all if self.starts(it)}
        left = [0]
        seen = {0}
        while left:
            v = left.pop()
            for edge in self.graph.out[v]:
                held = self.at[edge.to] & self.over(edge.deeds, self.at[v])
                if held != self.at[edge.to] or edge.to not in seen:
                    seen.add(edge.to)
                    self.at[edge.to] = held
                    left.append(edge.to)

    def is_global(self, x):
        return self.names.program.variables[self.names.vars[x]][2]

    def starts(self, fact):
        if fact[0] == "ready":
            return self.is_global(fact[1])
        if fact[0] == "equal":
            return self.is_global(fact[1]) == self.is_global(fact[2])
        return fact[0] != "full"

    def over(self, deeds, held):
        """The facts behind deeds, of those before them."""
        for deed in deeds:
            if deed[0] == "sets":
                held = self.behind_write(deed[1], deed[2], held)
            else:
                held = held | self.shown(deed)
        return held

    def shown(self, deed):
        kind, count = deed[0], len(self.names.vars)
        if kind == "reads" and deed[1][0] == "name":
            e = deed[1][1]
            return {("ready", e)} if e < count else {("filled", *self.names.fields[e - count])}
        if kind == "follows" or kind == "not null" and deed[1] < count:
            return {("full", deed[1])}
        if kind == "null" and deed[1] < count:
            x = deed[1]
            return self.about(x, "apart") | self.about(x, "filled")
        if kind in ("equal", "differ") and all(it[0] == "name" and it[1] < count for it in deed[1:]) and deed[1] != deed[2]:
            return {("equal" if kind == "equal" else "apart", *sorted(it[1] for it in deed[1:]))}
        if kind == "sets field" and deed[1][0] == "name" and deed[1][1] < count:
            return {("filled", deed[1][1], deed[3])}
        return set()

    def about(self, x, kind):
        if kind == "filled":
            return {("filled", *it) for it in self.names.fields if it[0] == x}
        return {(kind, *sorted((x, z))) for z in range(len(self.names.vars)) if z != x}

    def behind_write(self, x, source, held):
        copied = source[1][1] if source[0] == "content" and source[1][0] == "name" else None
        if copied == x:
            return held
        is_loaded = source[0] == "content" and (copied is None or copied >= len(self.names.vars))
        now = {it for it in held if x not in (it[1:2] if it[0] in ("ready", "full", "filled") else it[1:])}
        if source[0] == "content" and not is_loaded:
            return now | self.copies(x, copied, held)
        if source[0] == "null":
            return now | {("ready", x)} | self.about(x, "filled") | self.about(x, "apart")
        if source[0] == "new":
            return now | {("ready", x), ("full", x)} | self.about(x, "apart")
        if source[0] == "undef":
            return now | self.about(x, "filled") | self.about(x, "apart")
        return now | {("ready", x)}

    def copies(self, x, y, held):
        """The facts about x behind a copy of y to it."""
        found = {("ready", x), ("equal", *sorted((x, y)))}
        if ("full", y) in held:
            found.add(("full", x))
        found |= {("filled", x, f) for z, f in self.names.fields if z == x and ("filled", y, f) in held}
        for kind in ("equal", "apart"):
            for z in range(len(self.names.vars)):
                if z not in (x, y) and (kind, *sorted((y, z))) in held:
                    found.add((kind, *sorted((x, z))))
        return found
