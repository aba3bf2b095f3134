"""Command lines of the tools, their manual and their installation."""
