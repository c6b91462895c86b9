"""What becomes of objects on all paths: marks, and the triples, forbidden puts and conflicts that are derived.

A mark is a site and a string with a letter for each expression: Y where it surely points to the object, N where it surely
doesn't, and ? where that is open."""


class TooMany(Exception):
    """More triples than the limit, or an edge that is wide for a mark."""


class Marks:
    def __init__(self, names, may, facts):
        self.names, self.may, self.facts, self.known = names, may, facts, {}

    # Whether variables hold the same object.

    def alias(self, node, mark, z, x):
        pair, held = tuple(sorted((z, x))), self.facts.at[node]
        if z == x or ("equal", *pair) in held or mark[1][z] == mark[1][x] == "Y":
            return "same"
        if ("apart", *pair) in held or {mark[1][z], mark[1][x]} == {"Y", "N"} or not self.may.vars[z] & self.may.vars[x]:
            return "differ"
        return "maybe"

    def base_alias(self, node, mark, z, base):
        if base[0] == "name" and base[1] < len(self.names.vars):
            return self.alias(node, mark, z, base[1])
        return "maybe" if self.may.found(base) & self.may.vars[z] else "differ"

    # Writes.

    def verdict(self, mark, notes, looked):
        if looked[0] == "deep":
            return "Y" if looked[3] in notes else "N"
        return mark[1][looked[1]]

    def of_source(self, mark, notes, source, fresh):
        if source[0] == "content":
            return self.verdict(mark, notes, source[1])
        return fresh if source[0] == "new" else "N"

    def set(self, mark, x, source, verdict):
        if source == ("content", ("name", x)):
            return mark
        now = list(mark[1])
        now[x] = verdict
        for e in range(len(self.names.vars), self.names.count):
            base, f = self.names.fields[e - len(self.names.vars)]
            if base == x:
                now[e] = self.beneath(mark, source, f)
        return (mark[0], "".join(now))

    def beneath(self, mark, source, f):
        if source[0] != "content":
            return "N"
        looked = source[1]
        if looked[0] == "name" and looked[1] < len(self.names.vars):
            return mark[1][self.names.field_place[looked[1], f]]
        return "?"

    def put(self, node, mark, deed, verdict):
        _, base, struct, f, _ = deed
        now = list(mark[1])
        for e in range(len(self.names.vars), self.names.count):
            z, g = self.names.fields[e - len(self.names.vars)]
            if g == f and self.names.type_at(z) == ("to", struct):
                alias = self.base_alias(node, mark, z, base)
                if alias == "same" or alias == "maybe" and now[e] != verdict:
                    now[e] = verdict if alias == "same" else "?"
        return (mark[0], "".join(now))

    def written(self, node, mark, notes, deed, fresh="N"):
        if deed[0] == "sets":
            return self.set(mark, deed[1], deed[2], self.of_source(mark, notes, deed[2], fresh))
        if deed[0] == "sets field":
            return self.put(node, mark, deed, self.of_source(mark, notes, deed[4], fresh))
        return mark

    def settled(self, mark):
        return (mark[0], "".join("N" if it == "?" and mark[0] not in self.may.found(("name", e)) else it for e, it in enumerate(mark[1])))

    def born(self, edge):
        mark = (self.names.site_of[edge.start], "N" * self.names.count)
        for deed in edge.deeds:
            mark = self.written(edge.start, mark, (), deed, "Y")
        return self.settled(mark)

    # Posts.

    def splits(self, mark, read):
        """The marks behind a read, each with whether the object was touched."""
        flows = mark[0] in self.may.found(read)
        if read[0] == "deep":
            return ([(mark, True)] if flows else []) + [(mark, False)]
        e = read[1]
        if mark[1][e] != "?":
            return [(mark, mark[1][e] == "Y")]
        told = [((mark[0], mark[1][:e] + it + mark[1][e + 1:]), it == "Y") for it in "YN"]
        return told if flows else told[1:]

    def excludes(self, entry, deed):
        mark, _, notes = entry
        if deed[0] == "null":
            beneath = (e for e in range(len(self.names.vars), self.names.count) if self.names.base(e) == deed[1])
            return mark[1][deed[1]] == "Y" or any(mark[1][e] == "Y" for e in beneath)
        if deed[0] not in ("equal", "differ"):
            return False
        pair = {self.verdict(mark, notes, it) for it in deed[1:]}
        return pair == ({"Y", "N"} if deed[0] == "equal" else {"Y"})

    def turn(self, node, deed, at, entry):
        mark, touched, notes = entry
        if deed[0] == "reads":
            is_noted = deed[1][0] == "deep" and deed[2]
            return [(it, touched or met, notes + (at,) if is_noted and met else notes) for it, met in self.splits(mark, deed[1])]
        if self.excludes(entry, deed):
            return []
        return [(self.written(node, mark, notes, deed), touched, notes)]

    def post(self, edge, mark):
        """The marks behind an edge, each with whether the object was touched."""
        key = (id(edge), mark)
        if key not in self.known:
            entries, at = [(mark, False, ())], 0
            for deed in edge.deeds:
                entries = list(dict.fromkeys(it for entry in entries for it in self.turn(edge.start, deed, at, entry)))
                if deed[0] == "reads":
                    at += deed[1][0] == "deep" and deed[2]
                    if len(entries) > 4096:
                        raise TooMany
            self.known[key] = list(dict.fromkeys((self.settled(it), touched) for it, touched, _ in entries))
        return self.known[key]


class Derived:
    """The least triples of a node, a mark and the candidates, with the forbidden puts and the pairs that conflict."""

    def __init__(self, names, marks, most=100_000):
        self.names, self.marks, self.forbidden, self.pairs = names, marks, set(), set()
        graph = names.graph
        born = [(it.to, marks.born(it), frozenset()) for it in graph.edges if it.way == "made" and it.start in graph.reached]
        self.triples = list(dict.fromkeys(born))
        seen = set(self.triples)
        for node, mark, held in self.triples:
            context, place = graph.nodes[node]
            if context is not None and place.kind == "gap":
                held = self.gap(place.data[0], mark, held)
            for edge in graph.out[node]:
                for after in self.over(edge, mark, held):
                    if after not in seen:
                        seen.add(after)
                        self.triples.append(after)
            if len(self.triples) > most:
                raise TooMany

    def over(self, edge, mark, held):
        for after, touched in self.marks.post(edge, mark):
            if touched:
                self.forbidden |= held
            yield (edge.to, after, frozenset() if touched else held)

    def gap(self, gap, mark, held):
        held = set(held)
        for k, e in self.names.puts_of.get(gap, ()):
            base, verdict = self.names.base(e), mark[1][e]
            if base is not None and mark[1][base] != "N":
                self.pairs |= {(min(j, k), max(j, k)) for j in held}
            if verdict == "?" or verdict == "Y" and k in held:
                self.forbidden.add(k)
            if verdict == "Y":
                held.add(k)
        return frozenset(held)
