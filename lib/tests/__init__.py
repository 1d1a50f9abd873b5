"""Unit tests of reraid-try: in lib, python3 -m unittest."""
