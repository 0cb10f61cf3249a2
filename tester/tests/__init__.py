"""Tests of the parts of the tester that need no station. `python3 -m unittest` in the folder above
runs them."""
