"""The trials of tests/test-audits, by subject:

runs    runs of the program, and how much memory they had
pipes   trees and transcripts from pipes: what is held of them, and what is copied
faults  trees that cannot be read or are malformed
bounds  memory, room of addresses and time
"""
