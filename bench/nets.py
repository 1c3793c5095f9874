"""Nets and PNML documents of them, for the scripts of this folder.

    from nets import philosophers
    philosophers(3).document()    # the bytes of a document
"""
import random

FRONT = (
    '<?xml version="1.0" encoding="UTF-8"?><pnml xmlns="http://www.pnml.org/version-2009/grammar/pnml">'
    '<net id="sample" type="http://www.pnml.org/version-2009/grammar/ptnet"><page id="page">'
)
REAR = "</page></net></pnml>\n"
MOST_NODES = 2048
MOST_ARCS = 65536
MOST_REFERENCES = 4096
MOST_BYTES = 64 << 20


class Net:
    """A net in the making. `inner` is put into each place, transition and arc after its number."""

    def __init__(self, inner=""):
        self.inner = inner
        self.places = {}  # id: tokens
        self.transitions = []
        self.references = {}  # id: target
        self.arcs = []  # source, target, weight
        self.arc_width = 0

    def place(self, place, tokens=0):
        self.places[place] = tokens

    def transition(self, transition, inputs=(), outputs=()):
        """Adds a transition with its places, each an id or a pair of an id and a weight."""
        self.transitions.append(transition)
        for place in inputs:
            place, weight = place if isinstance(place, tuple) else (place, 1)
            self.arcs.append((place, transition, weight))
        for place in outputs:
            place, weight = place if isinstance(place, tuple) else (place, 1)
            self.arcs.append((transition, place, weight))

    def document(self):
        parts = [FRONT]
        for place, tokens in self.places.items():
            number = "<initialMarking><text>%d</text></initialMarking>" % tokens if tokens else ""
            parts.append(element("place", 'id="%s"' % place, number + self.inner))
        for transition in self.transitions:
            parts.append(element("transition", 'id="%s"' % transition, self.inner))
        for reference, target in self.references.items():
            parts.append(element("referencePlace", 'id="%s" ref="%s"' % (reference, target), ""))
        for i, (source, target, weight) in enumerate(self.arcs):
            attributes = 'id="%s" source="%s" target="%s"' % (wide("a%d" % i, self.arc_width), source, target)
            number = "<inscription><text>%d</text></inscription>" % weight if weight != 1 else ""
            parts.append(element("arc", attributes, number + self.inner))
        parts.append(REAR)
        data = "".join(parts).encode()
        if len(data) > MOST_BYTES:
            raise SystemExit("a document of %d bytes is too long" % len(data))
        return data


def element(name, attributes, content):
    if content:
        return "<%s %s>%s</%s>" % (name, attributes, content, name)
    return "<%s %s/>" % (name, attributes)


def wide(name, width):
    """The name, filled up to this many bytes."""
    return name.ljust(width, "x")


def philosophers(n):
    """Dining philosophers who take both forks at once: the net of `sample`."""
    net = Net()
    for i in range(n):
        net.place("think%d" % i, 1)
    for i in range(n):
        net.place("fork%d" % i, 1)
    for i in range(n):
        net.place("eat%d" % i)
    for i in range(n):
        think, eat, forks = "think%d" % i, "eat%d" % i, ["fork%d" % i, "fork%d" % ((i + 1) % n)]
        net.transition("take%d" % i, [think] + forks, [eat])
        net.transition("release%d" % i, [eat], [think] + forks)
    return net


def fan(n):
    """One transition with n input and n output places: n * n minimal semiflows of places."""
    net = Net()
    for side in "io":
        for i in range(n):
            net.place("%s%d" % (side, i))
    net.transition("t", ["i%d" % i for i in range(n)], ["o%d" % i for i in range(n)])
    return net


def token_ring(n):
    """Stations in a ring, of which the one that has the token works and hands it on."""
    net = Net()
    for i in range(n):
        net.place("token%d" % i, 1 if i == 0 else 0)
        net.place("idle%d" % i, 1)
        net.place("busy%d" % i)
    for i in range(n):
        net.transition("use%d" % i, ["token%d" % i, "idle%d" % i], ["busy%d" % i])
        net.transition("done%d" % i, ["busy%d" % i], ["idle%d" % i, "token%d" % ((i + 1) % n)])
    return net


def manufacturing(n):
    """A flexible manufacturing system of n cells. In a cell two kinds of parts go through two machines in
    opposite orders, and a robot that the cell shares with the next one loads them."""
    net = Net()
    for i in range(n):
        net.place("robot%d" % i, 1)
        for machine in "xy":
            net.place("%s%d" % (machine, i), 1)
        for part in "ab":
            net.place("pallets_%s%d" % (part, i), 3)
            for stage in ("load", "first", "second"):
                net.place("%s_%s%d" % (stage, part, i))
    for i in range(n):
        for part, one, two, robot in (("a", "x", "y", i), ("b", "y", "x", (i + 1) % n)):
            name, one, two, robot = "%s%d" % (part, i), "%s%d" % (one, i), "%s%d" % (two, i), "robot%d" % robot
            net.transition("grip_" + name, ["pallets_" + name, robot], ["load_" + name])
            net.transition("start_" + name, ["load_" + name, one], ["first_" + name, robot])
            net.transition("move_" + name, ["first_" + name, two], ["second_" + name, one])
            net.transition("end_" + name, ["second_" + name], ["pallets_" + name, two])
    return net


def producer_chain(n):
    """n producers and consumers in a row with buffers of bounded room between them. A worker takes 2 parts
    and makes 3, and the next one takes 3 and makes 2."""
    net = Net()
    for i in range(n + 1):
        net.place("full%d" % i)
        net.place("room%d" % i, 12)
    for i in range(n):
        net.place("ready%d" % i, 1)
        net.place("work%d" % i)
    net.transition("source", [("room0", 1)], [("full0", 1)])
    for i in range(n):
        takes, makes = (2, 3) if i % 2 == 0 else (3, 2)
        full, room = ["%s%d" % (kind, i) for kind in ("full", "room")]
        net.transition("take%d" % i, ["ready%d" % i, (full, takes)], ["work%d" % i, (room, takes)])
        net.transition("make%d" % i, ["work%d" % i, ("room%d" % (i + 1), makes)], ["ready%d" % i, ("full%d" % (i + 1), makes)])
    net.transition("sink", [("full%d" % n, 1)], [("room%d" % n, 1)])
    return net


def ring(n):
    """n places and n transitions in a ring, with one token."""
    net = Net()
    for i in range(n):
        net.place("p%d" % i, 1 if i == 0 else 0)
    for i in range(n):
        net.transition("t%d" % i, ["p%d" % i], ["p%d" % ((i + 1) % n)])
    return net


def islands(n):
    """n rings of two places that share nothing."""
    net = Net()
    for i in range(n):
        net.place("on%d" % i, 1)
        net.place("off%d" % i)
    for i in range(n):
        net.transition("stop%d" % i, ["on%d" % i], ["off%d" % i])
        net.transition("start%d" % i, ["off%d" % i], ["on%d" % i])
    return net


def layers(n):
    """A ring of n layers of two places. A transition feeds a place from both places of the layer before, so a minimal siphon
    has one place of each layer: there are 2^n of them, and as many grown ones."""
    net = Net()
    for i in range(n):
        net.place("left%d" % i, 1)
        net.place("right%d" % i)
    for i in range(n):
        for side in ("left", "right"):
            net.transition("to_%s%d" % (side, i), ["left%d" % i, "right%d" % i], ["%s%d" % (side, (i + 1) % n)])
    return net


def mutual_exclusion(n):
    """n processes that share one lock."""
    net = Net()
    for i in range(n):
        net.place("idle%d" % i, 1)
        net.place("critical%d" % i)
    net.place("lock", 1)
    for i in range(n):
        net.transition("enter%d" % i, ["idle%d" % i, "lock"], ["critical%d" % i])
        net.transition("leave%d" % i, ["critical%d" % i], ["idle%d" % i, "lock"])
    return net


def funnel(n):
    """A fan of n by n places, whose inputs another transition takes without giving: without that one first,
    n * n rows are made and dropped again."""
    net = fan(n)
    net.transition("drain", ["i%d" % i for i in range(n)])
    return net


def readers_and_writers(n):
    """n readers, each with a permit of its own, and a writer who takes all permits, over n processes of two kinds."""
    net = Net()
    net.place("permits", n)
    for i in range(n):
        for state in ("idle", "reads", "writes"):
            net.place("%s%d" % (state, i), 1 if state == "idle" else 0)
    for i in range(n):
        idle, reads, writes = "idle%d" % i, "reads%d" % i, "writes%d" % i
        net.transition("read%d" % i, [idle, "permits"], [reads])
        net.transition("done%d" % i, [reads], [idle, "permits"])
        net.transition("write%d" % i, [idle, ("permits", n)], [writes])
        net.transition("wrote%d" % i, [writes], [idle, ("permits", n)])
    return net


def marked_graph(n, seed=1):
    """n places, each with one transition before it and one after it, in a random order over a ring."""
    chance = random.Random(seed)
    net = Net()
    count = n // 2
    net.transitions = ["t%d" % i for i in range(count)]
    for i in range(n):
        source, target = (i, (i + 1) % count) if i < count else chance.sample(range(count), 2)
        net.place("p%d" % i, 1 if target <= source else 0)
        net.arcs.append(("t%d" % source, "p%d" % i, 1))
        net.arcs.append(("p%d" % i, "t%d" % target, 1))
    return net


def free_choice(n, seed=1):
    """n places, of which each transition takes from one; where a place has several transitions they choose. The
    first transition of each hands its token on in one of several rings."""
    chance = random.Random(seed)
    net = Net()
    ring = list(range(n))
    chance.shuffle(ring)
    following = {p: ring[i + 1] if (i + 1) % 6 and i + 1 < n else ring[i // 6 * 6] for i, p in enumerate(ring)}
    for i in range(n):
        net.place("p%d" % i, 1 if i % 7 == 0 else 0)
    for i in range(n):
        for k in range(chance.choice((1, 1, 2))):
            outputs = {following[i]} if k == 0 else set(chance.sample(range(n), 2))
            net.transition("t%d_%d" % (i, k), ["p%d" % i], ["p%d" % p for p in sorted(outputs)])
    return net


def referring(shape, size=MOST_REFERENCES):
    """Reference nodes as `chain`: each to the next, the last to a place; `chains`: each to the place; `cycle`:
    each to the next, the last to the first; `spokes`: each to the last one, which leads to itself."""
    net = Net()
    net.place("p0")
    target = {
        "chain": lambda i: "r%d" % (i + 1) if i + 1 < size else "p0",
        "chains": lambda i: "p0",
        "cycle": lambda i: "r%d" % ((i + 1) % size),
        "spokes": lambda i: "r%d" % (size - 1),
    }[shape]
    net.references = {"r%d" % i: target(i) for i in range(size)}
    net.transition("t0", ["r0"], [])
    return net


def wide_arcs(arcs, width):
    """Arcs between 256 places and 256 transitions, with ids of this many bytes everywhere."""
    net = Net()
    net.arc_width = width
    for i in range(256):
        net.place(wide("p%d" % i, width))
    net.transitions = [wide("t%d" % i, width) for i in range(256)]
    net.arcs = [(wide("p%d" % (i % 256), width), wide("t%d" % (i // 256), width), 1) for i in range(arcs)]
    return net


def blocks(width):
    """2,048 places in blocks of this width, a power of two from 32 on, and 2,048 transitions; 32 transitions
    take a token of each place of a block, those for which no block is left take none. It is free-choice."""
    net = Net()
    for i in range(MOST_NODES):
        net.place("p%d" % i)
    for i in range(MOST_NODES):
        first = i // 32 * width
        net.transition("t%d" % i, ["p%d" % p for p in range(first, min(first + width, MOST_NODES))])
    return net


def largest(inner, share=1):
    """The most places, transitions and arcs, or of each one in so many, with this element in each of them."""
    net = Net(inner)
    nodes, arcs = MOST_NODES // share, MOST_ARCS // share
    for i in range(nodes):
        net.place("p%d" % i, i + 1)
    net.transitions = ["t%d" % i for i in range(nodes)]
    net.arcs = [("p%d" % (i % nodes), "t%d" % (i * 7 % nodes), i + 2) for i in range(arcs)]
    return net
