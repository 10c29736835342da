#!/usr/bin/env python3
"""Compares controllers in SUMO, by python/kolvunh/sumo/compare_sumo.py; --help says the words."""

import sys
from pathlib import Path

sys.path.insert(0, str(Path(__file__).resolve().parents[2] / "python"))

from kolvunh.sumo.compare_sumo import main

main()
