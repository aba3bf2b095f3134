"""Designs made of AADL of other tools, and new designs."""
