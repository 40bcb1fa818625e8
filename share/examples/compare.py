#!/usr/bin/env python3
"""Starts `shogi-compare` of the package beside this file; shogi_host/compare.py says what it does."""

import sys

from shogi_host.compare import main

if __name__ == "__main__":
    sys.exit(main())
