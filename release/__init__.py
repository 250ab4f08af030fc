"""Makes a release: the package, the archive, the man pages; and measures limits."""
