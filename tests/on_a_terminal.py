#!/usr/bin/env python3
"""Runs a command with a terminal as its standard error, and prints what the terminal gets, without what is wiped out.

Usage: on_a_terminal.py INPUT COMMAND WORDS ..; its standard output is dropped. Ends with the command's status.
"""

import os
import pty
import re
import subprocess
import sys


def read_all(terminal):
    told = b""
    while True:
        try:
            more = os.read(terminal, 65536)
        except OSError:  # nobody writes to it any more
            return told
        told += more


def main():
    terminal, errors = pty.openpty()
    with open(sys.argv[1], "rb") as script:
        child = subprocess.Popen(sys.argv[2:], stdin=script, stdout=subprocess.DEVNULL, stderr=errors)
    os.close(errors)
    told = read_all(terminal).decode().replace("\r\n", "\n")
    sys.stdout.write(re.sub(r"[^\n]*\r\033\[K", "", told))
    sys.exit(child.wait())


main()
