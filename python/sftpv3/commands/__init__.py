"""A module for each command: its text is that of the help, and `run` does what the command does. The first thing that
it imports is how every script begins, so that a user's interrupt ends it without a traceback."""
