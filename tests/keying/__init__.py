"""Searches that are drawn by number, and what is done to their reports and files, for tests/keys."""
