"""Nodes: C made of step code, and the records of real runs."""
