"""A network of hosts that pass synopses of one kind to each other, by its rules alone.

It has 1 to 16 nodes, none until it is opened, and 32 slots. Every call is lent a front part of
the values and of the memory. The rules of what is refused stand once, in `Rules`; what a node
holds and which slots are filled is told in two ways. `ByState` keeps forms and slots. `ByPaths`
keeps only which calls were accepted, and joins what has a path to the node.
"""

from typing import NamedTuple

from kinds import Refused
from readings import Reading

MOST_NODES = 16
SLOTS = 32
MEMORY = 32 * 2048
ALL = 2**64 - 1

# room that every frame fits
ROOM = 2048


class Open(NamedTuple):
    nodes: int


class Generate(NamedTuple):
    node: int
    tenant: int
    item: int
    amount: int


class Arrive(NamedTuple):
    node: int
    frame: bytes


class Send(NamedTuple):
    node: int
    slot: int


class Deliver(NamedTuple):
    slot: int
    node: int


class Drop(NamedTuple):
    slot: int


class Read(NamedTuple):
    node: int
    room: int


class Turn(NamedTuple):
    """A call, and how many values and bytes it is lent, at most all there are."""

    call: tuple
    values: int = ALL
    memory: int = ALL


class No(Exception):
    """A refusal: its number, and for bytes that are no frame the place and the kind."""

    def __str__(self):
        return "no " + "/".join(str(part) for part in self.args)


class Rules:
    """What is refused and what is answered; a subclass works out what nodes and slots hold."""

    def __init__(self, kind, values, memory):
        self.kind = kind
        self.values = values
        self.memory = memory

    def told_by(self, call):
        """The form that a call brings in."""
        if isinstance(call, Generate):
            return self.kind.single(Reading(call.tenant, call.item, call.amount))
        try:
            return self.kind.decode(call.frame)
        except Refused as fault:
            raise No(fault.number, fault.place, fault.kind) from None

    def make(self, turn):
        """Makes a turn, and gives its answer or raises its refusal."""
        try:
            found = self.answer_to(turn)
        except No:
            self.note(turn.call, False)
            raise
        self.note(turn.call, True)
        return found

    def answer(self, turn):
        try:
            return self.make(turn)
        except No as refusal:
            return str(refusal)

    def answer_to(self, turn):
        call = turn.call
        values, memory = min(turn.values, self.values), min(turn.memory, self.memory)
        nodes = call.nodes if isinstance(call, Open) else self.count()
        if isinstance(call, Open) and not 1 <= nodes <= MOST_NODES:
            raise No(1)
        if values < nodes or memory < MEMORY:
            raise No(2)
        if self.kind.is_overlong():
            raise No(3)
        for part in call._fields:
            if part == "node" and call.node >= nodes:
                raise No(4)
            if part == "slot" and call.slot >= SLOTS:
                raise No(5)
        if isinstance(call, Send) and self.is_filled(call.slot):
            raise No(7)
        if isinstance(call, (Deliver, Drop)) and not self.is_filled(call.slot):
            raise No(6)
        if isinstance(call, Arrive):
            self.told_by(call)
        if not isinstance(call, Read):
            return "ok"
        frame = self.kind.frame(self.form_at(call.node))
        if call.room < len(frame):
            raise No(8)
        return frame.hex().upper()


class ByState(Rules):
    """A form for each node, and the bytes in each filled slot."""

    def __init__(self, kind, values, memory):
        super().__init__(kind, values, memory)
        self.forms = []
        self.slots = {}

    def count(self):
        return len(self.forms)

    def is_filled(self, slot):
        return slot in self.slots

    def form_at(self, node):
        return self.forms[node]

    def take(self, node, form):
        self.forms[node] = self.kind.join(self.forms[node], form)

    def note(self, call, accepted):
        if not accepted or isinstance(call, Read):
            return
        if isinstance(call, Open):
            self.forms = [self.kind.empty] * call.nodes
            self.slots = {}
        elif isinstance(call, Send):
            self.slots[call.slot] = self.kind.frame(self.forms[call.node])
        elif isinstance(call, Drop):
            del self.slots[call.slot]
        elif isinstance(call, Deliver):
            self.take(call.node, self.kind.decode(self.slots[call.slot]))
        else:
            self.take(call.node, self.told_by(call))


class ByPaths(Rules):
    """Only the calls so far, and whether each was accepted."""

    def __init__(self, kind, values, memory):
        super().__init__(kind, values, memory)
        self.history = []

    def note(self, call, accepted):
        self.history.append((call, accepted))

    def since_open(self, *sorts):
        """The accepted calls of these sorts, with their turns, from the last accepted OPEN on."""
        accepted = [(at, call) for at, (call, ok) in enumerate(self.history) if ok]
        opened = max([at for at, call in accepted if isinstance(call, Open)], default=0)
        return [(at, call) for at, call in accepted if at >= opened and isinstance(call, sorts)]

    def count(self):
        opened = self.since_open(Open)
        return opened[0][1].nodes if opened else 0

    def is_filled(self, slot):
        turned = [call for _, call in self.since_open(Send, Drop) if call.slot == slot]
        return bool(turned) and isinstance(turned[-1], Send)

    def hops(self):
        """A SEND into a slot and a later DELIVER of it with no DROP of it between."""
        drops = self.since_open(Drop)
        for sent, send in self.since_open(Send):
            for delivered, deliver in self.since_open(Deliver):
                if sent < delivered and send.slot == deliver.slot and not any(
                        sent < at < delivered and drop.slot == send.slot for at, drop in drops):
                    yield sent, send.node, delivered, deliver.node

    def form_at(self, node):
        """The join of everything with a path to the node: hops one after another, at rising turns."""
        hops = list(self.hops())
        # what a node was told before this turn has a path
        until = {node: len(self.history)}
        grown = True
        while grown:
            grown = False
            for sent, sender, delivered, receiver in hops:
                if delivered < until.get(receiver, -1) and until.get(sender, -1) < sent:
                    until[sender] = sent
                    grown = True
        form = self.kind.empty
        for at, call in self.since_open(Generate, Arrive):
            if at < until.get(call.node, -1):
                form = self.kind.join(form, self.told_by(call))
        return form


def compare(state, paths):
    """Stops if the two ways differ on any node or slot."""
    assert state.count() == paths.count()
    for node in range(state.count()):
        assert state.form_at(node) == paths.form_at(node), node
    for slot in range(SLOTS):
        assert state.is_filled(slot) == paths.is_filled(slot), slot


def answers(kind, values, memory, turns):
    """The answers to the turns. Both ways have to agree on each, and at the end on all nodes and slots."""
    state, paths = ByState(kind, values, memory), ByPaths(kind, values, memory)
    found = []
    for turn in turns:
        one, other = state.answer(turn), paths.answer(turn)
        assert one == other, (turn, one, other)
        found.append(one)
    compare(state, paths)
    return found
