"""Sessions of OpenSSH's server that overlap on one folder: none may be refused."""
import os

from order_trials.playing import make_set
from order_trials.runs import together
from sftpv3.probe.workloads import WORKLOADS
from trials.other_servers import has_openssh

SEEDS = int(os.environ.get("ORDER_SEEDS", "1"))
CLIENTS, REQUESTS = (2, 4), 200

# Workloads with WRITEs into several pages, which a server may show in the midst of one.
WIDE = ("append", "big")


def tried(steps, folder, workload, clients, seed):
    place = os.path.join(folder, f"{workload}-{clients}-{seed}")
    make_set(place, workload, seed, clients, REQUESTS)
    status, said = together(place, "--profile", "posix", "--torn", "4096")
    is_torn = workload in WIDE and status == 4 and "pages" in said
    steps.check(f"{workload}, {clients} clients, seed {seed}", status == 0 or is_torn, said)


def openssh(steps, folder):
    if has_openssh(steps):
        for clients in CLIENTS:
            for workload in WORKLOADS:
                for seed in range(1, SEEDS + 1):
                    tried(steps, folder, workload, clients, seed)


TRIALS = (openssh,)
