"""Runs cases, which are tests as text (docs/CASES.md), on the program `sftpv3`: `blocks` reads files of cases,
`expanding` writes out what is short in them, `lines` makes bytes of lines, `runs` and `refusing` run the program,
`wanted` compares, `state` keeps how far a case is, `steps`, `serving` and `tables` do what its blocks say, and
`playing` plays all.
"""
