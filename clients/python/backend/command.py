#!python
"""The command `decl` of a wheel that has the program: becomes the program, and imports nothing of the package."""

import os
import signal
import sys

for folder in sys.path:
    program = os.path.join(folder, "decl", "bin", "decl")
    if os.path.isfile(program):
        for number in (signal.SIGPIPE, signal.SIGXFSZ):  # which Python ignores, and so would what it becomes
            signal.signal(number, signal.SIG_DFL)
        os.execv(program, ["decl", *sys.argv[1:]])
print("decl: the program of the Python package is not there", file=sys.stderr)
sys.exit(127)
