"""An interpreter of MSCCL XML, for tests alone: what a runtime makes of an algorithm, in any order and with queues of any length.

It is written from docs/RUNTIMES.md and what NCCL says of its collectives, and knows nothing of tools/exporting.
"""
