#!/usr/bin/env python3
"""Starts `shogi-status` of the package beside this file; shogi_host/status.py says what it does."""

import sys

from shogi_host.status import main

if __name__ == "__main__":
    sys.exit(main())
