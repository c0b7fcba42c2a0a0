"""Models of what servers do wrong: each changes one thing in what passes between a client and a sound server.

between    what stands between them, and the streams of packets
kinds      what models are made of: a stand-in that knows what was asked and what is open
models     the table of all models, and the sentence of each
replaying  plays a session on `sftpv3 serve` behind a model
numbers    the numbers in a model, and how they are found in a session
distant    judges files of some GiB as if they were short

The other modules have the models by where they act. Tests put them in front of a sound server, and the probe compares
with them what a server did (docs/PROBE.md).
"""
