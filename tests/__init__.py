"""The tests of the repository that need no proof: tests/common.py says how to run them."""
