"""The parts of tests/test-sshd:

ground    a copy of the whole system, with a network of its own, that is thrown away
page      the lines of docs/OPERATORS.md
clients   what sftp, scp, sshfs and lftp do in a session, and editors that save over sshfs
days      the sessions of a day: what is to be accepted, and what the page says that no audit follows; audits that read
          along
alone     an account that has SFTP alone
"""
