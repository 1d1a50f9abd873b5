"""Candidates: their volumes, what checkers say of these, the files that are whole, and which candidates have the same volume."""
