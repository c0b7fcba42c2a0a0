"""All that this package takes from other packages of the project: packets, transcripts, tree files and files of times,
and how commands find the program and end."""
from __future__ import annotations

from sftpv3.codec import CLIENT, SERVER, kinds, packets, transcripts, trees
from sftpv3.codec.fields import Fields, Malformed, string, uint32
from sftpv3.spool.clocks import Clock
from sftpv3.spool.clocks import Malformed as MalformedTimes
from sftpv3.spool.clocks import clock_of
from sftpv3.system.inputs import place_of, shown
from sftpv3.system.parsers import Parser, meant, octal, one_of
from sftpv3.system.program import NotBuilt, called, program, put

__all__ = ["CLIENT", "Clock", "Fields", "Malformed", "MalformedTimes", "NotBuilt", "Parser", "SERVER", "called",
           "clock_of", "kinds", "meant", "octal", "one_of", "packets", "place_of", "program", "put", "shown", "string",
           "transcripts", "trees", "uint32"]
