"""What the tools around psi are made of: networks, running psi, reports, intervals and pictures."""

__version__ = "1.0.0"
