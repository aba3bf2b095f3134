"""Bundles and scenarios: reading, writing, and the places in them."""
