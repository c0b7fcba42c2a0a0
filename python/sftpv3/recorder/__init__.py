"""The parts of clients/record, each building on those before it:

packets   a stream of bytes as packets, one direction of a session; VERSION without extensions
server    the server's process: its start, its end, its status
auditing  an audit that reads along
sessions  the loop that passes packets on, how it ends, and what the client of a session that ends still awaits
forced    what ForceCommand put the recorder in the place of
words     the words of a command line, read without argparse; parsers: with it, with help and complaints
options   the commands sftpv3-record and sftpv3-recordd"""
