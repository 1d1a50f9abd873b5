"""What is tried, in which order, and where the search ends."""
