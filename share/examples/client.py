#!/usr/bin/env python3
"""Starts `python3 -m shogi_host` of the package beside this file; shogi_host/__main__.py says what it does."""

import sys

from shogi_host.__main__ import main

if __name__ == "__main__":
    sys.exit(main())
