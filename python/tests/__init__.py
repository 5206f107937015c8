"""Tests of the package: `python3 -m unittest` in the folder above, or `tests/run`, which builds the library first."""
