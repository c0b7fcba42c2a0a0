"""The trials of tests/test-serve, by subject:

steps     starts servers over sockets and pipes, speaks to them, and says what a saved tree has
ends      signals at rest and within transfers, clients that go away, servers that are killed
saving    files of --save: several sessions, folders, full disks, links, permissions, other users
logs      --log, usage, programs that cannot run
programs  sftp, lftp, paramiko, sshfs and sshd, as far as they are installed
"""
