#!/usr/bin/env python3
"""Runs a network under several demands and seeds, by python/kolvunh/sweep.py; --help says the words."""

import sys
from pathlib import Path

sys.path.insert(0, str(Path(__file__).resolve().parents[1] / "python"))

from kolvunh.sweep import main

main()
