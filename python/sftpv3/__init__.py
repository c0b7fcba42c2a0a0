"""The scripts around the program, in layers. Each imports only itself and those above it in this list:

codec     packets, transcripts and tree files, by the documents and not by the program; how they are shown
system    files and the ways to them, signals, processes, the program, standard streams, options
spool     where records go: files, pipes, and the spool that sftpv3-recordd keeps
recorder  records a session: sftpv3-record
nights    audits the sessions of a day: sftpv3-nightly
serve     serves a session that a signal ends in order: sftpv3-serve
fault     lets something go wrong between a client and a server: sftpv3-fault
tree      the tree of a live folder: sftpv3-tree
together  an order that explains sessions which overlapped: sftpv3-together
peer      a server as its client has it: its process, its packets, its end
faults    models of what servers do wrong, which the probe compares with what it found, and tests put before a server
page      a recorded session as HTML: sftpv3-page
walk      looks at the files of a server: sftpv3-walk
probe     plays planned sessions against a server: sftpv3-probe
servers   starts other servers for the probe, on the files of a tree
commands  a module for each command, which clients/NAME starts"""
