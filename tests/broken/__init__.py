"""Servers with faults, which tests/stand-in starts:

planted          servers with bugs, for tests/test-probe
faults           servers with one fault each, for tests/test-probe-faults: the models of python/sftpv3/faults, and
                 those of keeping, which no reply shows
faulty_lasting   servers whose fault only the next session shows, for tests/test-lasting
faulty_together  servers whose fault only two clients at once show, for tests/test-together
misbehaving      servers that end, hang and are late, for tests/test-probe-runs; unusual: ones that are right
mutated          mistakes in sessions that are right, for tests/test-profiles
surveyed         what plans do that clients do, for tests/test-probe
between          servers with a fault each, for walks and nights; hostile: servers that mean harm to a walk
overlapping      a fault that shows where sessions overlap, for tests/test-order
"""
