"""The studio in a real browser: `python/browser/run` runs these tests."""
