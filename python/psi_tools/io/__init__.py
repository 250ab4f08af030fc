"""Files and texts: TOML, reports, tables, answers, and lines on a terminal."""
