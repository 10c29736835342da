#!/usr/bin/env python3
"""Makes SUMO's files from a network file, by python/kolvunh/sumo/to_sumo.py; --help says the words."""

import sys
from pathlib import Path

sys.path.insert(0, str(Path(__file__).resolve().parents[2] / "python"))

from kolvunh.sumo.to_sumo import main

main()
