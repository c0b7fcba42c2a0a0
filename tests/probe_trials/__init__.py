"""The trials of tests/test-probe-runs, by subject:

runs     runs the probe on a server, and reads what it printed
found    servers that end, hang, are late or write what is no packet: what is found of each
starts   servers that cannot be started, --reset, and what servers leave behind
own      servers whose files are not those of the tree
words    bad usage, and files that cannot be read or would be lost
ends     signals, a terminal that goes away, --patience and --budget
failing  what fails on the side of the probe: the system, its outputs, itself
first    --quick, --known, --last-failed, --max-kinds, and what a server keeps that nothing needs
looked   --checks, in all reports, and how far sessions reached
inner    modules of the probe, called without a run; and that --jobs changes no report
told     modules that read what a session shows, called without a run and without a server
"""
