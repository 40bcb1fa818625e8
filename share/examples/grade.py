#!/usr/bin/env python3
"""Starts `shogi-grade` of the package beside this file; shogi_host/grade.py says what it does."""

import sys

from shogi_host.grade import main

if __name__ == "__main__":
    sys.exit(main())
