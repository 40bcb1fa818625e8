#!/usr/bin/env python3
"""Starts `shogi-analyse` of the package beside this file; shogi_host/analyse.py says what it does."""

import sys

from shogi_host.analyse import main

if __name__ == "__main__":
    sys.exit(main())
