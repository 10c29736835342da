#!/usr/bin/env python3
"""Makes a network file of SUMO's network, by python/kolvunh/sumo/from_sumo.py; --help says the words."""

import sys
from pathlib import Path

sys.path.insert(0, str(Path(__file__).resolve().parents[2] / "python"))

from kolvunh.sumo.from_sumo import main

main()
