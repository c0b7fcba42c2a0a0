"""The parts of clients/serve, in the order of their use:

options   the command line: what is for the script, and what goes on to `sftpv3 serve`; the program
parsers   the same options as argparse has them, for help and complaints
saving    the file of --save: what is tried at the start, and where the tree goes at the end
inputs    the server's input, and how it is ended: a socket that it is given, or a pipe that is filled
sessions  the server's process, the signals, the log; a session from its start to its end
"""
