"""The trials of tests/test-record, by subject:

steps     starts recorders, and speaks to them
stub      a server with few requests, which can behave badly at the end of a session
ends      whatever ends first: client, server, a pipe, a signal
failing   full disks, long packets, lack of memory, commands that cannot run, code of the user
naming    names of transcripts, folders, links, times
live      audits that read along
spools    sftpv3-recordd: records that the login user cannot touch
"""
