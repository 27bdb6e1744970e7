"""Searches whose limits grow until a point meets the floor."""
