"""Servers with a fault in one of four sessions: a set in which the fault acted is accepted only if an order explains
it, so most are not."""
import os

from order_trials.playing import make_set
from order_trials.runs import together
from trials.other_servers import has_openssh

SEEDS = int(os.environ.get("ORDER_SEEDS", "1"))
CLIENTS, REQUESTS = 4, 150

# Faults with a workload in which somebody looks at what they did.
SEEN = ("excl-locks", "lost-remove-locks", "lost-write-append", "stale-read-ranges", "stale-stat-setstat",
        "wrong-byte-ranges")


def acted(place):
    with open(os.path.join(place, "acted"), encoding="ascii") as file:
        return int(file.read())


def tried(steps, folder, name, seed):
    fault, workload = name.rsplit("-", 1)
    place = os.path.join(folder, f"{name}-{seed}")
    os.makedirs(place)
    os.environ["ORDER_ACTED"] = os.path.join(place, "acted")
    make_set(place, workload, seed, CLIENTS, REQUESTS, fault)
    del os.environ["ORDER_ACTED"]
    status, said = together(place, "--profile", "posix")
    if acted(place):
        steps.check(f"{name}, seed {seed}: not accepted", status in (1, 4), said)
    else:
        steps.check(f"{name}, seed {seed}: the fault had no chance, and it is accepted", status == 0, said)


def faults(steps, folder):
    if has_openssh(steps):
        for name in SEEN:
            for seed in range(1, SEEDS + 1):
                tried(steps, folder, name, seed)


TRIALS = (faults,)
