"""Explanations of the program's outputs: the cause of a rejection, its place and its mend."""
