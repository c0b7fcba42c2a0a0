"""What goes wrong between a client and a server on purpose, for `sftpv3-fault`.

rules     which requests, and what becomes of them: the values of the options
packets   a stream as packets; what becomes of each packet, by the rules
streams   the loop that passes both streams on, holds replies back, and ends the session"""
