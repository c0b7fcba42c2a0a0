"""What the test scripts share:

steps          the steps that are counted, and trials in parts
copies         copies of the scripts
processes      programs that are started, waited for, found and ended; users of a trial
disks          small file systems, and how they are filled
sessions       the client's end of a session
clients        the real clients that are installed, and how each gets a server
ssh            those that speak SSH themselves
sshd           an sshd on the loopback
probes         servers with a fault each, the groups of a report, plans
dated          short sessions that set times, for the probe
other_servers  where OpenSSH's server is, and the sessions in examples/servers
"""
