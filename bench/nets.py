"""Circuits to measure with, within the limits (01, "What the library takes and gives"), each the same in every run: gates that do
something, and random ones that only cost."""
import random

LARGEST, LATCHES, SENSORS, CONTROLS = 1000, 10, 5, 8
GATES = LARGEST - LATCHES - SENSORS - CONTROLS
CLIMB = 119  # gates of `dense` that aren't random


class Net:
    """A circuit in the making. Its gates stand in file order, and everything is a literal."""

    def __init__(self, sensors=SENSORS, controls=CONTROLS, latches=LATCHES):
        numbers = range(2, 2 * (sensors + controls + latches) + 2, 2)
        self.sensors = numbers[:sensors]
        self.controls = numbers[sensors:sensors + controls]
        self.latches = numbers[sensors + controls:]
        self.free = numbers.stop
        self.gates = []

    def both(self, a, b):
        self.gates.append((self.free, a, b))
        self.free += 2
        return self.free - 2

    def either(self, a, b):
        return self.both(a ^ 1, b ^ 1) ^ 1

    def differ(self, a, b):
        return self.both(self.both(a, b) ^ 1, self.both(a ^ 1, b ^ 1) ^ 1)

    def every(self, literals):
        met = 1
        for literal in literals:
            met = self.both(met, literal)
        return met

    def add(self, left, right, carry):
        """The sum of two numbers of the same width, low bit first, and what is carried out of it."""
        total = []
        for a, b in zip(left, right):
            one = self.differ(a, b)
            total.append(self.differ(one, carry))
            carry = self.either(self.both(a, b), self.both(one, carry))
        return total, carry

    def fill(self, gates, seed):
        """Fills up with random gates to this many. Answers random next states, over all of them."""
        rng = random.Random(seed)
        while len(self.gates) < gates:
            self.both(rng.randrange(2, self.free), rng.randrange(2, self.free))
        return [rng.randrange(2, self.free) for _ in self.latches]

    def mix(self, gates, seed):
        """Random gates of state and reading up to this many, each of them used. Answers three literals that depend on them."""
        rng, known = random.Random(seed), [*self.sensors, *self.latches]
        a, b, c, d, *rest = self.sensors
        mixed = [self.both(a, b), self.both(c, d), *rest]
        while len(self.gates) < gates:
            pair = self.both(*(literal ^ rng.randrange(2) for literal in rng.sample(known, 2)))
            mixed = [*mixed[1:], self.differ(mixed[0], pair)]
            known.append(mixed[-1])
        return mixed

    def text(self, after, error):
        inputs = [*self.sensors, *self.controls]
        rows = [f"aag {self.free // 2 - 1} {len(inputs)} {len(self.latches)} 1 {len(self.gates)}", *map(str, inputs),
                *(f"{latch} {then}" for latch, then in zip(self.latches, after)), str(error),
                *(f"{gate} {a} {b}" for gate, a, b in self.gates),
                *(f"i{k} controllable_{k}" for k in range(len(self.sensors), len(inputs)))]
        return "".join(f"{row}\n" for row in rows)


def random_net(gates, guards):
    """Next states of any shape. The error asks for this many sensors to be met by as many controls."""
    net = Net()
    met = net.every(net.differ(a, b) ^ 1 for a, b in zip(net.sensors[:guards], net.controls))
    return net.text(net.fill(gates, 1), met ^ 1)


def last_control():
    """Next states of any shape, and every control but the last gives an error: each search goes through all of them."""
    net = Net()
    met = net.every(net.controls)
    return net.text(net.fill(GATES, 2), met ^ 1)


def counter(gates=0):
    """It goes up by one in each step, whatever the inputs, and the error comes at its greatest value."""
    net = Net()
    after, _ = net.add(net.latches, [0] * LATCHES, 1)
    error = net.every(net.latches)
    net.fill(gates, 3)
    return net.text(after, error)


def stairs(gates=GATES, sensors=SENSORS, controls=CONTROLS, latches=LATCHES, bits=LATCHES):
    """A counter of the first `bits` latches. The controls send it up by 2^C to 1, at most to its greatest value, where the error comes. So
    one value is lost in each round, from the top; and of each of the 2^C values below it the least control that kept is lost, so that its
    states are looked at again under every reading. That is close to the most looks that any circuit can ask for."""
    net = Net(sensors, controls, latches)
    after, error = climb(net, [control ^ 1 for control in net.controls], bits)
    net.fill(gates, 4)
    return net.text(after, error)


def dense():
    """Stairs in which every gate is used: which of eight controls sends up by how much is mixed, for each state and reading, by random
    gates."""
    net = Net()
    mixed = net.mix(GATES - CLIMB, 6)
    up = [control ^ 1 for control in net.controls]
    up[:len(mixed)] = map(net.differ, up, mixed)
    return net.text(*climb(net, up, LATCHES))


def climb(net, up, bits):
    """The next states and the error: the first `bits` latches go up by this number and one, at most to their greatest value."""
    low, high = net.latches[:bits], net.latches[bits:]
    total, over = net.add(low, up + [0] * len(low), 1)
    for bit in up[len(low):]:
        over = net.either(over, bit)
    return [*(net.either(bit, over) for bit in total), *high], net.every(low)


def chain(turned):
    """999 gates, each of which uses the one before it, from the first line to the last or the other way round."""
    gates = [f"{2 * k + 2} {2 * k} 2\n" for k in range(1, LARGEST)]
    return f"aag {LARGEST} 1 0 1 {LARGEST - 1}\n2\n{2 * LARGEST}\n" + "".join(reversed(gates) if turned else gates)
