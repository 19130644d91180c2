"""Scripts in which one call in ten is sent again, each answered update is acknowledged, and replicas read their clocks.
A small model of the replicas tells which number each message gets, so that a later event can deliver it; a script whose
numbers were wrong would print `none` lines. It forgets as replicas do: a copy of a call that left has no reply."""
import collections
import random

from several_replicas import CLIENTS, COUNTERS, ELSEWHERE_IN_A_HUNDRED, GOSSIP_IN_A_HUNDRED, SEED
from several_replicas import covers, join, operation

# how many items are logged anywhere before clients only read for a while, so few that no log gets full
BUSY = 400
# how many updates there are in all where they don't go on
FEW_UPDATES = 200
LOG_ROOM = 512
AGAIN_IN_A_HUNDRED = 10
TICKS_IN_A_HUNDRED = 2
DELTA = 1000
HELD = ("held",)


class Call:
    """A client's call: its name, whether it is an update, its label, and the time of its last copy."""

    def __init__(self, client, seq, updates, label, time):
        self.client = client
        self.name = (client, seq)
        self.updates = updates
        self.label = label
        self.time = time


class Item:
    """What a replica logs: an update with its stamp, or the acknowledgement of a call with its time."""

    def __init__(self, spot, name, label=None, stamp=None, time=None):
        self.spot = spot
        self.name = name
        self.label = label
        self.stamp = stamp
        self.time = time

    def is_update(self):
        return self.stamp is not None

    def is_new(self, received):
        place, number = self.spot
        return number > received[place]


class Replica:
    """What it has received and applied, what each replica told it, and what it hasn't forgotten."""

    def __init__(self, replicas, index, logged):
        self.index = index
        self.clock = 0
        self.applied = [0] * replicas
        # What each replica told that it has received; the own row is what was received here.
        self.told = [[0] * replicas for _ in range(replicas)]
        # The logged items by their spots, and how many replicas log an item.
        self.log = {}
        self.logged = logged
        self.held = []
        # The stamp of the executed update of each call that is known here, by the call's name.
        self.known = {}
        # Whether pruning may find something.
        self.is_changed = False

    def received(self):
        return self.told[self.index]

    def next_spot(self):
        return self.index, self.received()[self.index] + 1

    def receive(self, item):
        place, number = item.spot
        self.log[item.spot] = item
        self.logged[item.spot] += 1
        self.received()[place] = max(self.received()[place], number)
        self.is_changed = True

    def leave(self, item):
        del self.log[item.spot]
        self.logged[item.spot] -= 1
        if self.logged[item.spot] == 0:
            del self.logged[item.spot]

    def has_room(self):
        return len(self.log) < LOG_ROOM

    def accept(self, call):
        assert self.has_room()
        place, number = self.next_spot()
        stamp = list(call.label)
        stamp[place] = number
        self.receive(Item((place, number), call.name, call.label, stamp))
        return stamp

    def note(self, call, time):
        if not self.is_noted(call.name):
            assert self.has_room()
            self.receive(Item(self.next_spot(), call.name, time=time))

    def is_noted(self, name):
        return any(item.name == name for item in self.log.values() if not item.is_update())

    def taken_before(self, name):
        """The stamp of the call's update: the executed one, or else the one logged at the least spot."""
        logged = [item for item in self.log.values() if item.is_update() and item.name == name]
        least = min(logged, key=lambda item: item.spot, default=None)
        return self.known.get(name, least and least.stamp)

    def gossip_for(self, receiver):
        """What it has received, and what it logs and the receiver hasn't told that it has."""
        return list(self.received()), [item for item in self.log.values() if item.is_new(self.told[receiver])]

    def take(self, sender, received, items):
        for item in items:
            if item.is_new(self.received()):
                self.receive(item)
        for row in {sender, self.index}:
            self.told[row] = join(self.told[row], received)
        self.is_changed = True

    def read_clock(self, reading):
        self.clock = reading
        self.is_changed = True

    def settle(self):
        """Applies what is ready, gives the held calls that can be answered now, and forgets what is of no use."""
        waiting = [self.log[spot] for spot in sorted(self.log) if self.log[spot].is_update()]
        waiting = [item for item in waiting if not covers(self.applied, item.stamp)]
        while ready := next((item for item in waiting if covers(self.applied, item.label)), None):
            waiting.remove(ready)
            self.applied = join(self.applied, ready.stamp)
            self.known.setdefault(ready.name, ready.stamp)
        answered = [call for call in self.held if covers(self.applied, call.label)]
        self.held = [call for call in self.held if not covers(self.applied, call.label)]
        if self.is_changed:
            self.prune()
        return answered

    def prune(self):
        """Updates that all have leave, then calls that are done, then acknowledgements that are of no use."""
        floor = [min(parts) for parts in zip(*self.told)]
        for item in [item for item in self.log.values() if item.is_update() and not item.is_new(floor)]:
            self.leave(item)
        updated = {item.name for item in self.log.values() if item.is_update()}
        for ack in [item for item in self.log.values() if not item.is_update() and item.name not in updated]:
            self.known.pop(ack.name, None)
            if not ack.is_new(floor) and ack.time + DELTA < self.clock:
                self.leave(ack)
        self.is_changed = False


class Script:
    def __init__(self, events, replicas, service, most_updates):
        self.most_updates = most_updates
        self.updates = 0
        self.draws = random.Random(SEED)
        self.service = service
        self.lines = [f"lazyrep 1 {service} {replicas} {CLIENTS} {DELTA}"]
        # Of each item that some replica logs, how many do.
        self.logged = collections.Counter()
        self.replicas = [Replica(replicas, index, self.logged) for index in range(replicas)]
        self.labels = [[0] * replicas for _ in range(CLIENTS)]
        self.counts = [0] * CLIENTS
        # For each client its open call, and what it does next: a message to deliver, mostly.
        self.open = [None] * CLIENTS
        self.next = [None] * CLIENTS
        # Further copies, and gossip, that are still under way.
        self.copies = []
        self.gossips = []
        self.sent = 0
        while len(self.lines) <= events:
            self.add_event()

    def add_event(self):
        if self.gossips and self.draws.randrange(2):
            self.deliver_gossip(*self.gossips.pop(0))
        elif self.copies and self.draws.randrange(4) == 0:
            self.deliver_copy(*self.copies.pop(0))
        else:
            self.begin_event(self.draws.randrange(100))

    def begin_event(self, drawn):
        able = [client for client in range(CLIENTS) if self.next[client] != HELD]
        if len(self.replicas) > 1 and (not able or drawn < GOSSIP_IN_A_HUNDRED):
            self.send_gossip()
        elif drawn < GOSSIP_IN_A_HUNDRED + TICKS_IN_A_HUNDRED:
            self.tick(self.draws.choice(self.replicas))
        else:
            self.go_on(self.draws.choice(able))

    def message(self):
        self.sent += 1
        return self.sent

    def some_replica(self, client):
        index = client % len(self.replicas)
        if self.draws.randrange(100) < ELSEWHERE_IN_A_HUNDRED:
            index = self.draws.randrange(len(self.replicas))
        return index

    def tick(self, replica):
        replica.read_clock(len(self.lines))
        self.lines.append(f"tick {replica.index} {replica.clock}")
        self.end_step(replica.index)

    def send_gossip(self):
        sender, receiver = self.draws.sample(range(len(self.replicas)), 2)
        self.lines.append(f"gossip {sender} {receiver}")
        received, items = self.replicas[sender].gossip_for(receiver)
        self.gossips.append((self.message(), sender, receiver, received, items))

    def deliver_gossip(self, number, sender, receiver, received, items):
        self.lines.append(f"deliver {number}")
        self.replicas[receiver].take(sender, received, items)
        self.end_step(receiver)

    def end_step(self, index):
        replica = self.replicas[index]
        for call in replica.settle():
            self.reply(call, list(replica.applied))

    def reply(self, call, stamp):
        """A reply is sent; it is the client's next message where the call is open and has none yet."""
        number = self.message()
        step = self.next[call.client]
        if self.open[call.client] is call and step[0] != "reply":
            if step[0] == "copy":
                self.copies.append((*step[1:], call, call.time))
            self.next[call.client] = ("reply", number, stamp)

    def go_on(self, client):
        """One step further with the client's call."""
        step = self.next[client]
        if step is None:
            self.call(client)
        elif step[0] == "copy":
            self.next[client] = HELD
            self.deliver_copy(step[1], step[2], self.open[client], self.open[client].time)
        elif step[0] == "reply":
            self.take_reply(client, step[1], step[2])
        elif step[0] == "ack":
            self.acknowledge(client, step[1])
        else:
            self.deliver_ack(client, *step[1:])

    def call(self, client):
        index = self.some_replica(client)
        name = f"n{self.draws.randrange(COUNTERS)}"
        adds = self.may_update() and self.draws.randrange(2) == 0
        self.updates += adds
        self.counts[client] += 1
        time = len(self.lines)
        call = Call(client, self.counts[client], adds, list(self.labels[client]), time)
        self.lines.append(f"call {client} {index} {time} {operation(self.service, self.draws, name, adds)}")
        self.open[client] = call
        self.next[client] = ("copy", self.message(), index)
        if self.draws.randrange(100) < AGAIN_IN_A_HUNDRED:
            again = self.draws.randrange(len(self.replicas))
            time = len(self.lines)
            self.lines.append(f"resend {client} {again} {time}")
            self.copies.append((self.message(), again, call, time))

    def deliver_copy(self, number, index, call, time):
        self.lines.append(f"deliver {number}")
        replica = self.replicas[index]
        if call.updates:
            self.take_update(replica, call, time)
        elif covers(replica.applied, call.label):
            self.reply(call, list(replica.applied))
        else:
            replica.held.append(call)
        self.end_step(index)

    def take_update(self, replica, call, time):
        """A copy that is late or acknowledged is refused, one that is known is replied to again."""
        if time + DELTA < replica.clock:
            assert self.open[call.client] is not call
        elif stamp := replica.taken_before(call.name):
            self.reply(call, stamp)
        elif not replica.is_noted(call.name):
            self.reply(call, replica.accept(call))

    def take_reply(self, client, number, stamp):
        self.lines.append(f"deliver {number}")
        self.labels[client] = join(self.labels[client], stamp)
        call, self.open[client] = self.open[client], None
        self.next[client] = ("ack", call) if call.updates else None

    def may_update(self):
        return self.updates < self.most_updates and len(self.logged) < BUSY

    def acknowledge(self, client, call):
        index = self.some_replica(client)
        time = len(self.lines)
        self.lines.append(f"ack {client} {index} {time}")
        self.next[client] = ("acknowledged", self.message(), index, call, time)

    def deliver_ack(self, client, number, index, call, time):
        self.lines.append(f"deliver {number}")
        self.replicas[index].note(call, time)
        self.end_step(index)
        self.next[client] = None


def make_script(events, replicas, service, most_updates):
    return "".join(line + "\n" for line in Script(events, replicas, service, most_updates).lines)
