"""Candidates that a search gave up, and what other solvers say of them."""
