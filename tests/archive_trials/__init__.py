"""The trials of tests/test-archives, by subject:

members   archives as Python writes them, what a folder has, runs of the program
memory    long files: what an import takes
refused   what has to be refused, what is no archive, and files that cannot be written or are the input
programs  what tar, bsdtar, BusyBox and cpio make of a small folder, and members that programs write seldom
limits    what only raised limits hold
folders   a folder of 10,000 files, and times, in each of tar's formats
"""
