"""Explain a file of envelopes: the program iim-explain."""
