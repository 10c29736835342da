#!/usr/bin/env python3
"""Makes a network file of CityFlow's files, by python/kolvunh/cityflow.py; --help says the words."""

import sys
from pathlib import Path

sys.path.insert(0, str(Path(__file__).resolve().parents[2] / "python"))

from kolvunh.cityflow import main

main()
