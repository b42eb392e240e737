"""Scores of planners: their plans judged, and their costs by the optima and lower bounds of a series."""
