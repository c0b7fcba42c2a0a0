"""Audits many recordings, for clients/audits.

recordings  which recordings are named: files, folders, lists; and the share of one machine of several
judging     `sftpv3 audit` of each, several at a time
results     verdicts as lines, as JSON and as JUnit; their summary
merging     the reports of several runs as one, and what is missing in them
"""
