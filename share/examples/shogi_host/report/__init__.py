"""What the moves of a game were worth, and reports of it: a table, a curve, a page, a commented record, data."""
