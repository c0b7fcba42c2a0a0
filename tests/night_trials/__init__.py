"""The trials of tests/test-nightly, by subject:

place    a user's folder, the records of the sessions that change it, and runs of the night for it
days     right sessions, running and overlapping ones, changes by others
replies  servers of one fault each, records that are cut or lack a reply: what a night says of them
bounds   memory and time: programs that print much, lower limits of the system, a pause
ends     signals, and no room, at each point of keeping a record
words    bad usage, folders that are not there, an output that is full
blows    runs and recorders that are killed at each step
spools   strange files, dates, names and places of records
sets     sessions that overlap
mounts   sessions that run on
causes   why a session is refused
copies   what bounds the copies of records
behind   what is judged behind a refusal, and what is not
summaries what a night says for machines, and how long it keeps records
"""
