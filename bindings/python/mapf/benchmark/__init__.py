"""Benchmarks of planners: series of runs, the scores of plans, and pictures; the rest of the package imports none of it."""
