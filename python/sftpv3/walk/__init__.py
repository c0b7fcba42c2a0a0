"""The parts of clients/walk, each building on those before it:

bounds     what ends a walk, and what no tree file has
sessions   a session with a server: asks many requests at a time, and records all that passes; what a reply says
looking    what is asked: where things are, what a directory has, what a link and a file hold; asks `sftpv3 infer` for
           the tree that was seen
remains    removes what `sftpv3 infer` leaves of a tree file if it is ended
options    the command line, and the exit statuses
"""
