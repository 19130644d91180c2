"""Scripts for several replicas. A small model of the replicas tells which number each message gets, so that the next
event can deliver it; a script whose numbers were wrong would print `none` lines."""
import random

CLIENTS = 8
COUNTERS = 50
SEED = 1
UPDATES = 500
GOSSIP_IN_A_HUNDRED = 2
ELSEWHERE_IN_A_HUNDRED = 10
HELD = ("held",)


def covers(stamp, label):
    """Whether each part of the label is at most that of the stamp."""
    return all(most >= part for most, part in zip(stamp, label))


def operation(service, draws, name, updates):
    """An update of a name, or a query of it."""
    if not updates:
        return f"read {name}"
    drawn = draws.randrange(1000)
    return f"add {name} {drawn}" if service == "tally" else f"send {name} w{drawn}"


def join(one, other):
    return [max(a, b) for a, b in zip(one, other)]


class Replica:
    def __init__(self, replicas):
        self.received = [0] * replicas
        self.applied = [0] * replicas
        self.log = []
        self.pending = []
        self.held = []

    def log_update(self, spot, prev):
        place, number = spot
        stamp = list(prev)
        stamp[place] = number
        self.log.append((spot, prev, stamp))
        self.pending.append((prev, stamp))
        self.received[place] = max(self.received[place], number)

    def take(self, received, log):
        for spot, prev, _ in log:
            if spot[1] > self.received[spot[0]]:
                self.log_update(spot, prev)
        self.received = join(self.received, received)

    def settle(self):
        """Applies what is ready, and gives the held calls that can be answered now."""
        before = None
        while before != len(self.pending):
            before = len(self.pending)
            later = []
            for prev, stamp in self.pending:
                if covers(self.applied, prev):
                    self.applied = join(self.applied, stamp)
                else:
                    later.append((prev, stamp))
            self.pending = later
        answered = [call for call in self.held if covers(self.applied, call[1])]
        self.held = [call for call in self.held if not covers(self.applied, call[1])]
        return [client for client, _ in answered]


class Script:
    def __init__(self, events, replicas, service):
        self.draws = random.Random(SEED)
        self.service = service
        self.lines = [f"lazyrep 1 {service} {replicas} {CLIENTS} 1000"]
        self.replicas = [Replica(replicas) for _ in range(replicas)]
        self.labels = [[0] * replicas for _ in range(CLIENTS)]
        # For each client the event that carries its call on: a message to deliver and what it does then.
        self.waiting = [None] * CLIENTS
        self.gossips = []
        self.sent = 0
        self.updates = 0
        while len(self.lines) <= events:
            self.add_event()

    def add_event(self):
        if self.gossips and self.draws.randrange(2):
            self.deliver_gossip(self.gossips.pop(0))
            return
        able = [client for client in range(CLIENTS) if self.waiting[client] != HELD]
        if not able or self.draws.randrange(100) < GOSSIP_IN_A_HUNDRED:
            self.send_gossip()
        else:
            self.go_on(self.draws.choice(able))

    def send_gossip(self):
        sender, receiver = self.draws.sample(range(len(self.replicas)), 2)
        self.lines.append(f"gossip {sender} {receiver}")
        self.sent += 1
        replica = self.replicas[sender]
        self.gossips.append((self.sent, receiver, list(replica.received), list(replica.log)))

    def deliver_gossip(self, gossip):
        number, receiver, received, log = gossip
        self.lines.append(f"deliver {number}")
        self.replicas[receiver].take(received, log)
        self.end_step(receiver)

    def end_step(self, index):
        replica = self.replicas[index]
        for client in replica.settle():
            self.reply(client, list(replica.applied))

    def reply(self, client, stamp):
        self.sent += 1
        self.waiting[client] = ("reply", self.sent, stamp)

    def go_on(self, client):
        """One step further with the client's call."""
        step = self.waiting[client]
        if step is None:
            self.call(client)
        elif step[0] == "reply":
            self.lines.append(f"deliver {step[1]}")
            self.labels[client] = join(self.labels[client], step[2])
            self.waiting[client] = None
        else:
            self.deliver_call(client, *step)

    def call(self, client):
        index = client % len(self.replicas)
        if self.draws.randrange(100) < ELSEWHERE_IN_A_HUNDRED:
            index = self.draws.randrange(len(self.replicas))
        name = f"n{self.draws.randrange(COUNTERS)}"
        adds = self.updates < UPDATES and self.draws.randrange(2) == 0
        self.updates += adds
        op = operation(self.service, self.draws, name, adds)
        self.lines.append(f"call {client} {index} {len(self.lines)} {op}")
        self.sent += 1
        self.waiting[client] = ("update" if adds else "query", self.sent, index)

    def deliver_call(self, client, kind, number, index):
        self.lines.append(f"deliver {number}")
        replica, label = self.replicas[index], list(self.labels[client])
        if kind == "update":
            spot = (index, replica.received[index] + 1)
            replica.log_update(spot, label)
            self.reply(client, replica.log[-1][2])
        elif covers(replica.applied, label):
            self.reply(client, list(replica.applied))
        else:
            self.waiting[client] = HELD
            replica.held.append((client, label))
        self.end_step(index)


def make_script(events, replicas, service):
    return "".join(line + "\n" for line in Script(events, replicas, service).lines)
