#!/usr/bin/env python3
"""check_interval.py FILE: checks certificates of intervals, by python/psi_tools/check_interval.py, which is alone."""

import pathlib
import runpy

TOP = pathlib.Path(__file__).resolve().parent.parent
runpy.run_path(str(TOP / "python/psi_tools/check_interval.py"), run_name="__main__")
