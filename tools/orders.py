#!/usr/bin/env python3
"""Runs a network in many orders of its nodes, by python/kolvunh/orders.py; --help says the words."""

import sys
from pathlib import Path

sys.path.insert(0, str(Path(__file__).resolve().parents[1] / "python"))

from kolvunh.orders import main

main()
