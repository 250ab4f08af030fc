#!/usr/bin/python3
"""merge_reports.py FILE..: prints the report of all; python/psi_tools/io/reports.py has all of it."""

import sys

import packaged  # noqa: F401
from psi_tools.io.reports import ReportError, main, merged  # noqa: F401

if __name__ == "__main__":
    sys.exit(main(sys.argv[1:]))
