#!/usr/bin/env python3
"""cut.py FILE COMMAND..: runs the command on an input that gives the file's bytes, and then fails where the input should end."""
import socket
import subprocess
import sys

ours, theirs = socket.socketpair()
ours.sendall(open(sys.argv[1], "rb").read())
# a socket that is closed over bytes it never took is, for the other side, an error behind all that was sent
theirs.sendall(b"!")
ours.close()
sys.exit(subprocess.run(sys.argv[2:], stdin=theirs, check=False).returncode)
