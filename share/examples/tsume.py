#!/usr/bin/env python3
"""Starts `shogi-tsume` of the package beside this file; shogi_host/tsume.py says what it does."""

import sys

from shogi_host.tsume import main

if __name__ == "__main__":
    sys.exit(main())
