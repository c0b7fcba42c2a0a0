"""The parts of clients/nightly, each building on those before it:

bounds   what bounds the copies of records
records  the transcripts of users, and copies of them where only root can change them
earlier  what a run of an earlier version left
journal  what is decided of records is done as a whole, or finished by the next run
parts    how far a session that runs can be judged for good
spans    when sessions ran, and which may have run at the same time
running  programs that run within bounds
auditing the options of an audit, and what its lines say
accounts several accounts whose sessions change the same folders
sets     sessions that sftpv3-together judges together
causes   why a session was refused
looking  whether a session asked for any change
opening  places that are open, and sessions without their requests there
behind   the tree behind a session that was not accepted, without these
keeping  for how long copies of records are kept
summary  what a night came to, for machines
judging  what a night says of records, and what becomes of their copies
night    one run: it audits what was recorded, and compares the folders with what that leaves
"""
