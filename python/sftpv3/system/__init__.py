"""What scripts ask of the system:

standard   the three standard descriptors; keeps other processes of the user out
signals    the module `signal`, quickly imported, and a pipe by which signals wake a loop
mounted    what another user mounted on the way to a file
ways       the way to a file by open folders, past links of others; whether others could replace it, and whether two
           names lead to one file
temporary  the folder for temporary files
naming     names of transcripts, and how they are opened
replacing  files that are replaced whole; files: those that are written anew, in folders of others, too
removing   folders with all that is in them
notices    lines to standard error, to a log, to syslog
starts     the program that was installed with the scripts, and why a command cannot run
ending     signals that end scripts in order
children   processes that scripts start and wait for
inputs     standard input as a file that can be read more than once
progress   how far a command is, said on standard error
pauses     how long they took, without pauses of the machine
greetings  text that comes in place of packets
parsers    complaints about command lines, and values of options
program    finds the program, also in the repository; what is said of failures"""
