"""A circuit of which some gates are stuck, as a question: the cheapest faults that explain what its inputs and outputs show. It is written as
a text for titan or as weighted clauses."""
import random

from circuits import FAMILIES, Circuit


class Question:
    """A circuit of which some gates are stuck so that an output is wrong, what its inputs and outputs show, and what each fault costs."""

    def __init__(self, name, sizes, faults, costs, seed):
        draw = random.Random(f"{name} {sizes} {faults} {costs} {seed}")
        self.circuit = circuit = Circuit()
        FAMILIES[name](circuit, *sizes, *([draw] if name == "random" else []))
        names = [gate[0] for gate in circuit.gates]
        self.costs = {gate: [1, 1] if costs == "unit" else [draw.randint(1, 9), draw.randint(1, 9)] for gate in names}
        for _ in range(1000):
            stuck = {gate: draw.random() < 0.5 for gate in draw.sample(names, min(faults, len(names)))}
            inputs = {wire: draw.random() < 0.5 for wire in circuit.inputs}
            right, values = circuit.values(inputs, {}), circuit.values(inputs, stuck)
            if any(values[wire] != right[wire] for wire in circuit.outputs):
                break
        self.seen = {wire: values[wire] for wire in circuit.inputs + circuit.outputs}

    def titan(self):
        """A model of a component a gate and a variable a wire, and one tick that sees the inputs and outputs."""
        lines = ["titan 1"]
        lines += [f"component {name}_gate = well, low, high start well" for name, _, _ in self.circuit.gates]
        lines += [f"var {wire} = no, yes sensed" for wire in self.circuit.inputs]
        lines += [f"var {name} = no, yes{' sensed' if name in self.seen else ''}" for name, _, _ in self.circuit.gates]
        for name, kind, wires in self.circuit.gates:
            lines.append(f"rule {name}_gate = well implies ({name} = yes iff {formula(kind, wires)})")
            lines.append(f"rule {name}_gate != well implies ({name} = yes iff {name}_gate = high)")
        for name, (low, high) in self.costs.items():
            lines += [f"fail {name}_gate well -> low cost {low}", f"fail {name}_gate well -> high cost {high}"]
        lines.append("script")
        lines += [f"observe {wire} = {'yes' if value else 'no'}" for wire, value in self.seen.items()]
        return "\n".join(lines + ["tick", ""])

    def wcnf(self):
        """The same as clauses for a solver of weighted satisfiability: hard ones of the top weight, and one for each fault that isn't there."""
        numbers = {wire: i + 1 for i, wire in enumerate(self.circuit.inputs + [gate[0] for gate in self.circuit.gates])}
        top = 1 + sum(sum(pair) for pair in self.costs.values())
        lines, last = [], len(numbers)
        for name, kind, wires in self.circuit.gates:
            low, high, last = last + 1, last + 2, last + 2
            lines += [f"{top} {-low} {-numbers[name]} 0", f"{top} {-high} {numbers[name]} 0", f"{top} {-low} {-high} 0"]
            lines += [f"{top} {low} {high} {clause} 0" for clause in clauses(kind, numbers[name], [numbers[wire] for wire in wires])]
            lines += [f"{cost} {-fault} 0" for fault, cost in zip((low, high), self.costs[name])]
        lines += [f"{top} {numbers[wire] if value else -numbers[wire]} 0" for wire, value in self.seen.items()]
        return "\n".join([f"p wcnf {last} {len(lines)} {top}", *lines, ""])


def formula(kind, wires):
    parts = [f"{wire} = yes" for wire in wires]
    if kind == "xor":
        return f"not ({' iff '.join(parts)})"
    text = (" and " if kind in ("and", "nand") else " or ").join(parts)
    return text if kind in ("and", "or") else f"not ({text})"


def clauses(kind, out, wires):
    """Clauses that are true exactly where the output is that of the gate."""
    if kind == "xor":
        one, other = wires
        return [f"{-out} {one} {other}", f"{-out} {-one} {-other}", f"{out} {-one} {other}", f"{out} {one} {-other}"]
    out = out if kind in ("and", "or") else -out
    sign = 1 if kind in ("and", "nand") else -1
    each = [f"{-sign * out} {sign * wire}" for wire in wires]
    return each + [" ".join(str(it) for it in [sign * out] + [-sign * wire for wire in wires])]
