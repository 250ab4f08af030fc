"""Networks, and what follows from their files alone: moves, classes, designs, models, refusals."""
