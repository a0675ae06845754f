"""Command line client of the Wirgatsu software catalogue."""

__version__ = "0.1.0"
