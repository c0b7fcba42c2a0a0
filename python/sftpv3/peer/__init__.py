"""A server as its client has it, for the walk and the probe:

pieces    which packets go in pieces, and when the second piece goes
servers   starts and ends the server, with packets to and from it, and ends what it leaves running
resources what a server takes of the system
programs  runs the program to its end, within bounds of memory
options   values of options that commands have which speak with a server"""
