"""Looks for an order that explains sessions which overlap, and has `sftpv3 audit` check it.

outside    what it takes from the other packages of the project
sets       a folder of transcripts and files of times
profiles   which departures a server may take
paths      paths of requests
nodes      what a tree has: directories, files and links, and what is open
states     a tree that requests change, and how changes are taken back
refusals   which requests may be refused, and by which codes
attributes what replies show of a node
looking    requests that change nothing
changing   requests that change the tree
listing    directories that are read while names come and go
deeds      requests with their replies, in the parts in which they may be done
teaching   what READs tell of the order of appends
searching  the search
repairing  one request that goes before another one, where a reply is wrong
others     changes that no session shows, of which replies tell
explaining why there is no order
checking   whether an order keeps to the sessions and to the clock; it shares nothing with the search
orders     files of orders
merging    the transcript of an order
inventing  the changes of others in an order, as a session
judging    `sftpv3 audit` of that
options    the command line
command    the command
"""
