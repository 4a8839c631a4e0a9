"""Unit tests: `python3 -m unittest` in the folder above. They need no cluster and no package but Python's own."""
