#!/usr/bin/python3
"""mean_values.py NET TOTAL [COUNT [PSI]]: the means of a closed network by mean value analysis."""

import packaged

packaged.start("mean_values", "mean_values")
