"""A model of document 01, and of what has landed of document 02, in plain Python: it shares nothing with the code; test data is reckoned by it."""
