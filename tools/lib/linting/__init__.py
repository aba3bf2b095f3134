"""What the program accepts and is likely not meant."""
