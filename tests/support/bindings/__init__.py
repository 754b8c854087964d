"""What the tests of the C library and of the Python package share."""
