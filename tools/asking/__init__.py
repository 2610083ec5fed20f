"""The parts of tools/ask.py: the proved programs, their answers in words, and pictures of them."""
