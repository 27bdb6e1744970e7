"""Machines, as other tools tell of them, and the topologies that come out."""
