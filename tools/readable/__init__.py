"""The readable form of masters, views and programs. docs/READABLE.md describes it."""
