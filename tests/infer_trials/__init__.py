"""The parts of tests/test-infer, each building on those before it:

judging   what `audit` says with a tree, and `infer` without one; trees that a seed makes, with links and names of one
          file; sessions of `sftpv3 serve`, the strict model, from them
hidden    sessions of models/model on trees of every kind, to be found
mistakes  sessions with one wrong reply each, and the same where the client has looked at everything first
real      sessions of real clients with OpenSSH's server, and those of other servers in examples/servers
bounds    sessions that cost a search much for their length, and what `infer` took for each
"""
