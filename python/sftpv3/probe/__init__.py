"""The parts of clients/probe. In the order in which they are used:

starting    the tree that a probe starts from
model       what the planner believes the server's tree to be, and what requests do to it
plans       the steps of a plan, or of a session that was recorded; the bytes in them; what a server has room for
planner     the plan of a session: draws scenes, each as often as it says, spells paths in many ways, and reads all back
            at the end
features    what `--skip` may name in a plan
scenes      small scenes that make sense; refusals: requests that some cause refuses
transfers   large scenes with much data, or with many names or handles; meetings: in which requests meet on one thing;
            pairs: of requests that depend on the one just before; renewals: that look again at what changed;
            remains: at what is left; crossings: of things of another kind than expected; dating: of times; takeovers:
            of what takes a place; holdings: of what a file, a directory or a link keeps; deeper, buffers: of what
            people get wrong who write a server; often: of what wears out; paging: of many names that change while they
            are listed; distances: of a file of some GiB; squares: of a table of requests and things
lasting     what is looked at once the server was started again on the files of a session
sessions    plays a plan against a server, and records it
together    a session over two connections to the same files
workloads   what several clients do at once on one folder; clients: which play that, each with a server of its own
sets        what `sftpv3-together` says of their sessions; overlaps: a run of the probe with --clients; overlap_reports:
            what it prints, keeps and reports
restarts    starts the server again on the files of a session, and plays the last steps of a plan there
below       a plan below a directory of its own; removes what sessions made there; sessions with a server whose files
            nobody can see, which look first
ownfiles    refuses to play where the server has other files than the tree's
verdicts    asks `sftpv3 audit`, and goes on after a difference
leaks       what a server took of the system and did not give back
groups      differences that are alike, and those that have one cause
needs       guesses at what a step needs; shrinking: by them, the shortest session that still shows a difference
known       the kinds that are expected, and the seeds that differed last
options     the command line, and the exit statuses
limits      what ends a run early, what was played, and how far the probe is; plays sessions side by side
runs        one run of the probe; quick: a first run
reports     what is printed, kept and reported, also as JUnit; a difference as pages and reports show it
"""
