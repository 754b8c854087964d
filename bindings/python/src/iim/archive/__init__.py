"""Check and audit archives of files of envelopes: the program iim-archive."""
