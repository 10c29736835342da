#!/usr/bin/env python3
"""Measures in SUMO what stop lines let through, by python/kolvunh/sumo/calibrate.py; --help says the words."""

import sys
from pathlib import Path

sys.path.insert(0, str(Path(__file__).resolve().parents[2] / "python"))

from kolvunh.sumo.calibrate import main

main()
