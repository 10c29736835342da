#!/usr/bin/env python3
"""Draws what the program writes, by python/kolvunh/draw.py; --help says the words."""

import sys
from pathlib import Path

sys.path.insert(0, str(Path(__file__).resolve().parents[1] / "python"))

from kolvunh.draw import main

main()
