"""Checks of documents, one module each: what a page says, beside the tree and the program."""
