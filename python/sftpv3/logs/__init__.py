"""Text of sessions from logs of OpenSSH's sftp-server, for clients/import-log.

messages   a log in sessions: what syslog or standard error puts round a message, and how the server escapes it
telling    the messages of a session as records, with what the log does not say of each
"""
