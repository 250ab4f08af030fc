#!/usr/bin/env python3
"""check_log.py NET LOG: checks a log against a network file, by python/psi_tools/check_log.py, which stands alone."""

import pathlib
import runpy

TOP = pathlib.Path(__file__).resolve().parent.parent
runpy.run_path(str(TOP / "python/psi_tools/check_log.py"), run_name="__main__")
