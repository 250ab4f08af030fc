"""Pictures and pages: `read_..` reads an input, `draw_..` draws what was read."""
