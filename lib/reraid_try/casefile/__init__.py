"""The report of a run for a case file: what is recorded of it, and the page that is made of that."""
