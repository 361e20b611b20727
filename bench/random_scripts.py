"""Draws scripts for `iox2-replay`, and runs a program on what is drawn of many seeds."""

import argparse
import collections
import functools
import multiprocessing
import os
import pathlib
import random
import resource
import subprocess
import sys

import machine
from machine import LAST_U32, LAST_U64, ROLES, Result

CRATES = pathlib.Path(__file__).resolve().parent.parent / "crates"
SECONDS_FOR_A_SCRIPT = 20
GIGABYTES = 4

PARTS_OF_IDS = [0, 0, 1, 1, 2, 5, 9, 10, 255, 65536, LAST_U32 - 1, LAST_U32]
NUMBERS = [0, 1, 7, 2**32, 2**63, LAST_U64 - 1, LAST_U64]
TOO_MANY = [machine.TOO_MANY_SLOTS, 2**56, 2**59 + 1, 2**60, 2**63 - 1, *NUMBERS[-3:]]
ALL_ROLES = [role for pair in ROLES.values() for role in pair]
WORDS = [b"register", b"deregister", b"nodes", b"add", b"release", b"list", b"count", b"dead"]


class Writer:
    """Writes one script line by line, and keeps a service beside it to name what is there."""

    def __init__(self, dice):
        self.dice, self.replies = dice, []
        pattern = dice.choice(list(ROLES))
        self.roles = ROLES[pattern]
        capacities = [self.capacity() for _ in range(3)]
        number = dice.choice([dice.choice(NUMBERS), dice.getrandbits(64)])
        self.lines = [b"service %s %d %d %d %d" % (pattern, number, *capacities)]
        self.service = machine.new_service(self.lines[0])
        self.nodes = [self.id(of_node=True) for _ in range(dice.randint(1, 6))]
        self.ports = [self.id() for _ in range(dice.randint(1, 8))] + self.nodes[:1]
        self.weights = [dice.choice([1, 2, 4, 8]) for _ in WORDS]
        self.weights[WORDS.index(b"release")] *= 2
        self.weights[WORDS.index(b"add")] *= 3
        self.stays_open = dice.random() < 0.7
        bounds, = dice.choices([(0, 5), (5, 40), (40, 150), (300, 2500)], [100, 700, 195, 5])
        for _ in range(dice.randint(*bounds)):
            self.lines.append(self.command())
            if self.service:
                self.replies.append(self.service.step(self.lines[-1]))
                if self.service.locked and dice.random() < 0.15:
                    break

    def capacity(self):
        if self.dice.random() < 0.004:
            return self.dice.choice(TOO_MANY)
        return self.dice.choice([0, 1, 1, 2, 2, 3, 3, 4, 4, 5, 5, 8, 8, 20, 100])

    def id(self, of_node=False):
        while True:
            parts = [self.dice.choice(PARTS_OF_IDS) for _ in range(4)]
            if self.dice.random() < 0.1:
                parts[self.dice.randrange(4)] = self.dice.getrandbits(32)
            if not of_node or parts[0] or parts[3]:
                return b"%d.%d.%d.%d" % tuple(parts)

    def command(self):
        word, = self.dice.choices(WORDS, self.weights)
        is_last = word in (b"deregister", b"dead") and self.may_lock()
        if is_last and self.stays_open and self.dice.random() < 0.97:
            word = b"register"
        return b" ".join([word, *self.arguments(word)])

    def may_lock(self):
        if not self.service:
            return False
        held = self.service.registries[machine.Service.NODE].entries.values()
        return len({entry.node for entry in held}) < 2

    def arguments(self, word):
        if word in (b"deregister", b"release"):
            return [self.earlier(of_node=word == b"deregister")]
        if word == b"dead" and self.dice.random() >= 0.4:
            skipped = [self.port() for _ in range(self.dice.choice([1, 1, 1, 2, 3, 8]))]
            return [self.node(), b"skip", *skipped]
        makers = {b"nodes": [], b"add": [self.role, self.port, self.node],
                  b"list": [self.role], b"count": [self.role]}
        return [make() for make in makers.get(word, [self.node])]

    def node(self):
        return self.dice.choice(self.nodes) if self.dice.random() < 0.97 else self.id(of_node=True)

    def port(self):
        return self.dice.choice(self.ports) if self.dice.random() < 0.9 else self.id()

    def role(self):
        return self.dice.choice(self.roles if self.dice.random() < 0.93 else ALL_ROLES)

    def earlier(self, of_node):
        """The number of an earlier command: mostly of one that holds an entry of the wanted kind,
        at times of any other."""
        handles = self.service.handles if self.service else {}
        commands = len(self.lines) - 1
        others = [self.dice.randint(0, commands), commands, commands + 1, self.dice.choice(NUMBERS)]
        held = [number for number, (kind, slot, ticket) in handles.items()
                if (kind == machine.Service.NODE) == of_node
                and self.service.registries[kind].holds(slot, ticket)]
        chosen = self.dice.choices([held or [*handles], [*handles], others], [7, 2, 1])[0]
        return b"%d" % self.dice.choice(chosen or others)


def drawn(seed):
    """The script of a seed, and what a program shows for it."""
    writer = Writer(random.Random(seed))
    script, output = (b"".join(line + b"\n" for line in lines)
                      for lines in (writer.lines, writer.replies))
    return script, Result(0, output, b"") if writer.service else Result(2, b"", b"no memory\n")


# ---- The program under test ----


class Otherwise(Exception):
    """With a seed, a program shows something else than it should: the seed, its input, and what."""


def shown_by(program, script, arguments=()):
    """What a program shows for a script, or a status that none has where it takes too long."""
    try:
        ended = subprocess.run([program, *arguments], input=script, capture_output=True,
                               timeout=SECONDS_FOR_A_SCRIPT)
    except subprocess.TimeoutExpired:
        return Result(None, b"", b"")
    return Result(ended.returncode, ended.stdout, ended.stderr)


def judged(judge, program, seed):
    return list(judge(program, seed))


def try_seeds(judge, about, crate, drawn, count, in_a_part):
    """Lets `judge` try a program, as the arguments say, with that many seeds, of each of which
    something is drawn. Returns how often it saw what. Ends at the first seed where it is
    otherwise."""
    options = argparse.ArgumentParser(description=about)
    options.add_argument("program", type=os.path.abspath, nargs="?", help=f"or that of {crate}",
                         default=CRATES / crate / "out" / crate)
    options.add_argument(f"--{drawn}", type=int, default=count, help=f"how many ({count:,})")
    options.add_argument("--first", type=int, default=0, help="the first seed (0)")
    options.add_argument("--jobs", type=int, default=1, help="how many processes run them (1)")
    chosen = vars(options.parse_args())
    seeds = range(chosen["first"], chosen["first"] + chosen[drawn])
    memory = resource.RLIMIT_AS, (GIGABYTES << 30, GIGABYTES << 30)
    with multiprocessing.Pool(chosen["jobs"], resource.setrlimit, memory) as pool:
        try:
            seen = pool.imap(functools.partial(judged, judge, chosen["program"]), seeds, in_a_part)
            return collections.Counter(each for of_seed in seen for each in of_seed)
        except Otherwise as otherwise:
            seed, given, why = otherwise.args
            sys.stdout.buffer.write(given)
            sys.exit(f"seed {seed}: {why}")
