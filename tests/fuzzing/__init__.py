"""Generated cases for tests/fuzz.py: programs, data, presets and words, and how they are run and shrunk."""
