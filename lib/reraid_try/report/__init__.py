"""What is printed: lines on the way, the table, the best in words, the nearest sets."""
