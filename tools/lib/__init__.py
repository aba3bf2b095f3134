"""The common part of the tools."""
