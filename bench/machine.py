"""A second, plain machine for the scripts of `iox2-replay`, written from their rules and from no
program: what the programs are compared with. Entries stand in dictionaries by slot. The lines that
it gets are good ones."""

from typing import NamedTuple

ROLES = {
    b"publish-subscribe": (b"publisher", b"subscriber"),
    b"event": (b"listener", b"notifier"),
    b"request-response": (b"server", b"client"),
    b"blackboard": (b"reader", b"writer"),
}
LAST_U32 = 2**32 - 1
LAST_U64 = 2**64 - 1
# From this many slots of one kind on no memory has room for a service.
TOO_MANY_SLOTS = 2**47


class Result(NamedTuple):
    """What a program that runs a script shows."""

    status: int
    output: bytes
    errors: bytes


class Entry(NamedTuple):
    ticket: int
    node: int
    shown: int


class Registry:
    """The nodes of a service, or its ports of one role."""

    def __init__(self, capacity):
        self.capacity, self.entries, self.tickets = capacity, {}, 0
        self.freed = []  # slots that were used and are free, in the order in which they became free

    def next_slot(self):
        """The slot that became free last, or else the first that was never used."""
        return self.freed.pop() if self.freed else len(self.entries)

    def add(self, node, shown):
        """The slot and the ticket of the new entry, or `None` where there is no room."""
        if len(self.entries) >= self.capacity:
            return None
        slot, ticket = self.next_slot(), self.tickets
        self.tickets += 1
        self.entries[slot] = Entry(ticket, node, shown)
        return slot, ticket

    def holds(self, slot, ticket):
        return slot in self.entries and self.entries[slot].ticket == ticket

    def free(self, slot):
        del self.entries[slot]
        self.freed.append(slot)

    def of_node(self, node):
        """The slots of a node's entries, by rising number."""
        return sorted(slot for slot, entry in self.entries.items() if entry.node == node)

    def shown(self):
        return [self.entries[slot].shown for slot in sorted(self.entries)]


class Service:
    NODE = b"node"

    def __init__(self, registry, pattern, *capacities):
        """`registry` makes that of one kind."""
        self.roles = ROLES[pattern]
        self.registries = dict(zip((Service.NODE, *self.roles), map(registry, capacities)))
        self.locked, self.commands = False, 0
        self.handles = {}  # by the number of the command: kind of entry, slot, ticket

    def step(self, line):
        """The reply to a command line, without its newline."""
        word, *words = line.split(b" ")
        reply = getattr(self, word.decode())(*words)
        if isinstance(reply, tuple):
            self.handles[self.commands] = reply
            reply = b"handle %d %d" % reply[1:]
        self.commands += 1
        return reply

    def register(self, node):
        return b"locked" if self.locked else self.added(Service.NODE, id_of(node), id_of(node))

    def add(self, role, port, node):
        if role not in self.roles:
            return b"wrong-pattern"
        if self.locked:
            return b"locked"
        if not self.registries[Service.NODE].of_node(id_of(node)):
            return b"not-registered"
        return self.added(role, id_of(node), id_of(port))

    def added(self, kind, node, shown):
        added = self.registries[kind].add(node, shown)
        return b"full" if added is None else (kind, *added)

    def deregister(self, number):
        if int(number) not in self.handles:
            return b"no-handle"
        kind, slot, ticket = self.handles[int(number)]
        nodes = self.registries[Service.NODE]
        if kind != Service.NODE or not nodes.holds(slot, ticket):
            return b"not-owned"
        node = nodes.entries[slot].node
        has_ports = any(self.registries[role].of_node(node) for role in self.roles)
        if len(nodes.of_node(node)) == 1 and has_ports:
            return b"ports-attached"
        return self.without_nodes([slot])

    def release(self, number):
        if int(number) not in self.handles:
            return b"no-handle"
        kind, slot, ticket = self.handles[int(number)]
        if kind == Service.NODE or not self.registries[kind].holds(slot, ticket):
            return b"not-owned"
        self.registries[kind].free(slot)
        return b"released"

    def nodes(self):
        return self.listing(Service.NODE)

    def list(self, role):
        return self.listing(role) if role in self.roles else b"wrong-pattern"

    def count(self, role):
        if role not in self.roles:
            return b"wrong-pattern"
        return b"count %d" % len(self.registries[role].entries)

    def dead(self, node, *skipped):
        node, kept = id_of(node), set(map(id_of, skipped[1:]))
        ports = [(self.registries[role], slot) for role in self.roles
                 for slot in self.registries[role].of_node(node)]
        gone = [(of, slot) for of, slot in ports if of.entries[slot].shown not in kept]
        for of, slot in gone:
            of.free(slot)
        return self.without_nodes(self.registries[self.NODE].of_node(node) if gone == ports else [])

    def without_nodes(self, slots):
        """Nodes leave. With the last one the service is locked."""
        nodes = self.registries[Service.NODE]
        for slot in slots:
            nodes.free(slot)
        self.locked |= bool(slots) and not nodes.entries
        return b"no-owners" if self.locked else b"has-owners"

    def listing(self, kind):
        return b"list" + b"".join(b" %x" % shown for shown in self.registries[kind].shown())


def id_of(words):
    """The number of an id, whose four parts have 32 bits each."""
    return sum(int(part) << shift for part, shift in zip(words.split(b"."), (96, 64, 32, 0)))


def new_service(line, registry=Registry):
    """The service of a service line, or `None` where no memory has room for it."""
    _, pattern, _, *capacities = line.split(b" ")
    fits = max(map(int, capacities)) < TOO_MANY_SLOTS
    return Service(registry, pattern, *map(int, capacities)) if fits else None
