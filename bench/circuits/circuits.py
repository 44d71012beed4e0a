"""Circuits made by name and size, and what their wires show where some gates are stuck."""

KINDS = {
    "and": all,
    "or": any,
    "nand": lambda values: not all(values),
    "nor": lambda values: not any(values),
    "xor": lambda values: sum(values) % 2 == 1,
    "not": lambda values: not any(values),
}


class Circuit:
    """Gates in an order in which each reads inputs and earlier gates. A wire is the name of an input or of a gate's output."""

    def __init__(self):
        self.inputs, self.gates, self.outputs = [], [], []

    def bus(self, name, count):
        wires = [f"{name}{i}" for i in range(count)]
        self.inputs += wires
        return wires

    def gate(self, kind, *wires):
        name = f"w{len(self.gates)}"
        self.gates.append((name, kind, wires))
        return name

    def values(self, inputs, stuck):
        """The value of each wire, for values of the inputs and of the gates that are stuck."""
        values = dict(inputs)
        for name, kind, wires in self.gates:
            values[name] = stuck[name] if name in stuck else KINDS[kind]([values[wire] for wire in wires])
        return values


def half_adder(c, a, b):
    return c.gate("xor", a, b), c.gate("and", a, b)


def full_adder(c, a, b, carry):
    part, one = half_adder(c, a, b)
    total, other = half_adder(c, part, carry)
    return total, c.gate("or", one, other)


def adder(c, bits):
    """Ripple-carry: each bit waits for the carry of the one below it."""
    a, b, carry = c.bus("a", bits), c.bus("b", bits), c.bus("c", 1)[0]
    for one, other in zip(a, b):
        total, carry = full_adder(c, one, other, carry)
        c.outputs.append(total)
    c.outputs.append(carry)


def multiplier(c, rows, columns):
    """An array: a row of products for each bit of b, added to what stands above it."""
    a, b = c.bus("a", columns), c.bus("b", rows)
    above, top = [c.gate("and", one, b[0]) for one in a], None
    for row in b[1:]:
        c.outputs.append(above[0])
        above, top = add_row(c, above[1:] + [top], [c.gate("and", one, row) for one in a])
    c.outputs += above + [wire for wire in [top] if wire]


def add_row(c, above, products):
    """The sums of a row, and the carry behind the last. Where nothing stands above or no carry comes, no gate is needed for it."""
    sums, carry = [], None
    for parts in zip(above, products):
        wires = [wire for wire in [*parts, carry] if wire]
        if len(wires) == 1:
            total, carry = wires[0], None
        else:
            total, carry = half_adder(c, *wires) if len(wires) == 2 else full_adder(c, *wires)
        sums.append(total)
    return sums, carry


def c17(c):
    a, b, d, e, f = c.bus("i", 5)
    g, h = c.gate("nand", a, d), c.gate("nand", d, e)
    k, m = c.gate("nand", b, h), c.gate("nand", h, f)
    c.outputs += [c.gate("nand", g, k), c.gate("nand", k, m)]


def no_carry(c, makes_none, kills, low):
    """The terms of which one is true where no carry comes out: the last bit kills it, or makes none and an earlier one killed it."""
    terms = [kills[-1]]
    for i in range(len(kills) - 1, -1, -1):
        terms.append(c.gate("and", *makes_none[i:], kills[i - 1] if i else low))
    return terms


def circuit_74182(c):
    """The carries of four groups, by generate and propagate, all active low."""
    p, g, carry = c.bus("p", 4), c.bus("g", 4), c.bus("c", 1)[0]
    low = c.gate("not", carry)
    for n in (1, 2, 3):
        terms = [c.gate("and", p[i], *g[i:n]) for i in range(n)]
        c.outputs.append(c.gate("nor", *terms, c.gate("and", low, *g[:n])))
    terms = [c.gate("and", p[i], *g[i:]) for i in (1, 2, 3)]
    c.outputs.append(c.gate("or", *terms, c.gate("and", *g)))
    c.outputs.append(c.gate("or", *p))


def circuit_74283(c):
    """An adder of four bits whose carries are looked ahead."""
    a, b, carry = c.bus("a", 4), c.bus("b", 4), c.bus("c", 1)[0]
    low = c.gate("not", carry)
    makes_none = [c.gate("nand", *pair) for pair in zip(a, b)]
    kills = [c.gate("nor", *pair) for pair in zip(a, b)]
    carries = [c.gate("not", low)] + [c.gate("nor", *no_carry(c, makes_none[:n], kills[:n], low)) for n in (1, 2, 3, 4)]
    for i in range(4):
        half = c.gate("and", makes_none[i], c.gate("not", kills[i]))
        c.outputs.append(c.gate("xor", half, carries[i]))
    c.outputs.append(carries[4])


def circuit_74181(c):
    """An arithmetic and logic unit of four bits: s selects what it does, m whether bit by bit."""
    s, a, b, m, carry = c.bus("s", 4), c.bus("a", 4), c.bus("b", 4), *c.bus("m", 1), *c.bus("c", 1)
    e, d = [], []
    for one, other in zip(a, b):
        inverse = c.gate("not", other)
        e.append(c.gate("nor", one, c.gate("and", other, s[0]), c.gate("and", s[1], inverse)))
        d.append(c.gate("nor", c.gate("and", inverse, s[2], one), c.gate("and", one, other, s[3])))
    arithmetic = c.gate("not", m)
    ties = [c.gate("nand", carry, arithmetic)]
    for n in (1, 2, 3):
        terms = [c.gate("and", arithmetic, e[i], *d[i + 1:n]) for i in range(n)]
        ties.append(c.gate("nor", *terms, c.gate("and", arithmetic, carry, *d[:n])))
    results = [c.gate("xor", c.gate("xor", e[i], d[i]), ties[i]) for i in range(4)]
    y = c.gate("nor", *[c.gate("and", e[i], *d[i + 1:]) for i in range(3)], e[3])
    x = c.gate("nand", *d)
    out = c.gate("nand", y, c.gate("nand", carry, *d))
    c.outputs += results + [c.gate("and", *results), x, y, out]


def drawn(c, inputs, gates, draw):
    """Gates of drawn kinds that read two wires each, of those that nothing reads yet where there are some."""
    unread = c.bus("i", inputs)
    wires = list(unread)
    for _ in range(gates):
        first = draw.choice(unread if unread and draw.random() < 0.7 else wires)
        second = draw.choice([wire for wire in wires if wire != first])
        unread = [wire for wire in unread if wire not in (first, second)]
        name = c.gate(draw.choice(["and", "or", "nand", "nor", "xor"]), first, second)
        wires.append(name)
        unread.append(name)
    c.outputs += [wire for wire in unread if wire not in c.inputs]


FAMILIES = {
    "c17": c17,
    "74182": circuit_74182,
    "74283": circuit_74283,
    "74181": circuit_74181,
    "adder": adder,
    "multiplier": multiplier,
    "random": drawn,
}
