"""A design's text in an editor: the language server and what it answers."""
