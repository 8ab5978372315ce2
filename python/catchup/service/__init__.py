"""Routes, days, reaches and tables of a packed file over HTTP, and edits of it: the file is the database."""
