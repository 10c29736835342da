#!/usr/bin/env python3
"""Lets the program decide for SUMO's signals, by python/kolvunh/sumo/loop.py; --help says the words."""

import sys
from pathlib import Path

sys.path.insert(0, str(Path(__file__).resolve().parents[2] / "python"))

from kolvunh.sumo.loop import main

main()
