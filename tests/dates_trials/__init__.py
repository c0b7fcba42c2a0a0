"""The trials of tests/test-dates, by subject:

rooms    servers of a tree and of a folder, and the times that they show
calls    what each request does to times, on the tree and on a folder
files    times from one session to the next, and to and from folders by GNU tar
clients  make, touch, cp -p, copies by size and time, lftp's mirror
"""
