"""The program run on bundles: its answers read back, campaigns of many scenarios, and random designs."""
