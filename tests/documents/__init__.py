"""Checks of the documents, by the program and by the files of the repository. `tests/test_documents.py` runs them."""
