#!/usr/bin/env python3
"""Runs a city that is cut into districts, each a process, by python/kolvunh/districts/command.py; --help says the words."""

import sys
from pathlib import Path

sys.path.insert(0, str(Path(__file__).resolve().parents[1] / "python"))

from kolvunh.districts.command import main

main()
