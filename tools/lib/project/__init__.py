"""Checks of this repository: crates, promises, public calls, and costs of large bundles."""
