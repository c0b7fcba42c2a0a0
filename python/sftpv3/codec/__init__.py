"""SFTP version 3 and the file formats of this project, for all scripts, by the documents and not by the program.

`fields` has what packets and files consist of, `packets` the packets of both sides, `transcripts` recorded sessions,
and `trees` tree files. `kinds` says what a file is, and `wording` has packets as a person reads them. What sessions
need is named here, too.
"""
from sftpv3.codec.fields import Fields, Malformed, attributes, names, pairs, string, uint32, uint64
from sftpv3.codec.packets import (APPEND, ATTRS, BAD_MESSAGE, CLIENT, CODES, CREAT, DATA, EOF, EXCL, EXTENDED,
                                  EXTENDED_REPLY, EXTENSIONS, FAILURE, HANDLE, INIT, LAYOUTS, LONGEST, LOOKERS, NAME,
                                  NAMES, NO_SUCH_FILE, OK, OP_UNSUPPORTED, PERMISSION_DENIED, READ, REPLIES, REQUESTS,
                                  SERVER, STATUS, TRUNC, VERSION, WRITE, Packet, Reply, Request, attributes_in,
                                  code_name, decode, encode, front, id_of, init, length, names_in, packet, read,
                                  request, split, status, string_in, version, version_of)
from sftpv3.codec.transcripts import BEGUN, OPENING, each_record, put_records, records, until_fault

__all__ = [
    "APPEND", "ATTRS", "BAD_MESSAGE", "BEGUN", "CLIENT", "CODES", "CREAT", "DATA", "EOF", "EXCL", "EXTENDED",
    "EXTENDED_REPLY", "EXTENSIONS", "FAILURE", "Fields", "HANDLE", "INIT", "LAYOUTS", "LONGEST", "LOOKERS", "Malformed",
    "NAME", "NAMES",
    "NO_SUCH_FILE", "OK", "OPENING", "OP_UNSUPPORTED", "PERMISSION_DENIED", "Packet", "READ", "REPLIES", "REQUESTS",
    "Reply", "Request", "SERVER", "STATUS", "TRUNC", "VERSION", "WRITE", "attributes", "attributes_in", "code_name",
    "decode", "each_record", "encode", "front", "id_of", "init", "length", "names", "names_in", "packet", "pairs",
    "put_records", "read", "records", "request", "split", "status", "string", "string_in", "uint32", "uint64",
    "until_fault", "version", "version_of",
]
