"""A second implementation of the texts of docs/FORMATS.md and of what docs/DEFINITIONS.md says of them, for tests alone.

It is written from these two documents and the definitions in crates/*/specs, plainly and slowly, and knows nothing of the
program's code.
"""
