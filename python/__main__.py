"""Runs a command of the package from the folder that it is in: python3 python COMMAND WORDS .."""

import signal
import sys

if signal.getsignal(signal.SIGINT) is signal.default_int_handler:  # an interrupt ends what has not begun, without words
    signal.signal(signal.SIGINT, signal.SIG_DFL)
if sys.version_info < (3, 11):
    print("kolvunh: this takes Python 3.11 or later, and here is", sys.version.split()[0], file=sys.stderr)
    sys.exit(2)

from kolvunh.__main__ import main

main()
