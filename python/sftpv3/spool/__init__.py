"""Where records go:

sinks        files, pipes, a spool; the file of times beside a transcript
clocks       files of times, read
names        the names of transcripts and of the files of times beside them
shares       what each user has of a spool
timing       the files of times that the daemon writes
descriptors  connections by which others may pass descriptors
keeping      the daemon that keeps records in a spool"""
