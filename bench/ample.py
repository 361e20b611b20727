"""What `iox2-replay`, `iox2-conform` and `iox2-describe` are run on with ample memory: inputs of
many sizes, which none may be too large for. Each comes with its name, the words after the program's
name, and the number of lines that are to be written, if that is known.

The sizes are all to 130, each power of two to 65,536 with one below and above, some more, and ten
random ones, which the environment variable `SEED` repeats."""

import os
import random
import time

from machine import ROLES

SEED = int(os.environ.get("SEED", time.time_ns() % 2**32))
NEAR_POWERS = [2**exponent + near for exponent in range(17) for near in (-1, 0, 1)]
RANDOM = random.Random(SEED).sample(range(131, 65_536), 10)
SIZES = sorted({*range(131), *NEAR_POWERS, 1_000, 1_001, 1_000_000, 1_000_001, *RANDOM})
LONGEST = {"iox2_conform": [5_000_000]}  # more sizes: logs of ten million lines

SERVICE = b"service event 7 1 1 1\n"
NODE = b"register 1.0.0.1\n"


def whole(front, piece, end, size):
    """A text of this many bytes, if there is one, and the number of pieces in it. Zeros behind its
    end make up for what is no whole piece."""
    pieces, more = divmod(size - len(front) - len(end) - 1, len(piece))
    return (front + piece * pieces + end + b"0" * more + b"\n", pieces) if pieces > 0 else None


def scripts(size):
    """Scripts by capacities, commands, bytes, bytes of a line, and entries of a listing."""
    for pattern in map(bytes.decode, ROLES):
        for capacities in [(size, 1, 1), (1, size, 1), (1, 1, size)]:
            line = f"service {pattern} 7 %d %d %d\n" % capacities
            yield f"{pattern} with the capacities {capacities}", [], line.encode(), 0
    yield f"{size} commands", [], SERVICE + b"nodes\n" * size, size
    if script := whole(SERVICE, b"nodes\n", b"release 1", size):
        yield f"{size} bytes", [], script[0], script[1] + 1
    # A dead node whose last port to be skipped has a longer id.
    if line := whole(b"dead 1.0.0.1 skip", b" 1.0.0.9", b"", size):
        yield f"a line of {size} bytes", [], SERVICE + line[0], 1
    nodes = NODE * size + b"nodes\n"
    yield f"{size} nodes", [], b"service event 7 %d 1 1\n" % size + nodes, size + 1
    ports = NODE + b"add listener 1.0.0.9 1.0.0.1\n" * size + b"list listener\n"
    yield f"{size} ports", [], b"service event 7 1 %d 1\n" % size + ports, size + 2


def logs(size):
    """Logs by calls of one caller, by calls of four that overlap without a pause, since another one
    is open from each round to the next, by callers and as many times that their service begins
    anew, and by bytes of a line."""
    first = b"service event 7 5 0 0\nregister 1.0.0.1\n= handle 0 0\n"
    alone = (b"register 2.0.0.2\n= handle 1 %d\nderegister 1 %d\n= has-owners\n" % (n, n)
             for n in range(1, size // 2 + 1))
    yield f"{size // 2 * 2} calls of one caller", [], first + b"".join(alone), 1
    rounds = [first]
    for number in range(size // 9):
        calls = [(b"ABCD"[at : at + 1], at + 1, 4 * number + at + 1) for at in range(4)]
        rounds += [b"E> nodes\n" if number % 2 == 0 else b"F> nodes\n"]
        rounds += [b"%b> register %d.0.0.2\n" % call[:2] for call in calls]
        rounds += [b"%b< handle %d %d\n" % call for call in calls]
        rounds += [b"%b> deregister %d %d\n" % call for call in calls]
        rounds += [b"%b< list %x\n" % (b"FE"[number % 2 :][:1], 2**96 + 1)] * (number > 0)
        rounds += [b"%b< has-owners\n" % caller for caller, _, _ in calls]
    yield f"{size // 9 * 9} calls of four callers", [], b"".join(rounds), 1
    anew = (b"C%d> nodes\nC%d< list\nstate nodes 0\n" % (n, n) for n in range(size // 9))
    yield f"{size // 9} callers and as many new services", [], SERVICE + b"".join(anew), 1
    yield f"a note of {size} bytes", [], SERVICE + b"#" * size + b"\n", 1


def message(prefix, elements):
    """The lines of a message with this many elements."""
    return (f"{prefix}header 32 8 Header\n{prefix}user-header 4 4 Counter\n"
            f"{prefix}payload dynamic 16 8 Distance\n"
            f"{prefix}elements {elements}\n{prefix}opener 8 2 4\n")


def descriptions(size):
    """Descriptions by elements, as text and as pictures. They are read as scripts are, of which
    each number of bytes is tried."""
    parts = {"publish-subscribe": [""], "request-response": ["request-", "response-"]}
    for pattern, prefixes in parts.items():
        text = f"{pattern} My/Service\n" + "".join(message(prefix, size) for prefix in prefixes)
        for words in [], ["svg"]:
            yield f"{pattern}, {size} elements", words, text.encode(), None
