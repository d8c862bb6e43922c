"""The judges of pages, which tests/docs.py runs."""
