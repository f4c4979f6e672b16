#!/usr/bin/env python3
"""Checks records of journals, as tools/audit/RECORD.md defines them, against the promises of README:

    tools/audit.py [--wire PCAP] FILE [FILE..]
    tools/audit.py --sentences

It shares nothing with the proxy's code. Each finding is a line of standard output: file, line, sentence, what was found and what was
wanted. The status is 0 with no finding, 1 with one or more, and 2 where a file can't be read.
"""
import sys

from audit.main import main

if __name__ == "__main__":
    sys.exit(main(sys.argv[1:]))
