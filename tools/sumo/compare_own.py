#!/usr/bin/env python3
"""Runs SUMO's own network under several controllers, by python/kolvunh/sumo/compare_own.py; --help says the words."""

import sys
from pathlib import Path

sys.path.insert(0, str(Path(__file__).resolve().parents[2] / "python"))

from kolvunh.sumo.compare_own import main

main()
