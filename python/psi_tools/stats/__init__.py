"""Statistics of samples: intervals, guaranteed intervals, batches, distributions, mean values."""
