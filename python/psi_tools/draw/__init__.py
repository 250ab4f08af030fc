"""Running psi: one answer or many, in blocks that are kept, on this machine or on others."""
