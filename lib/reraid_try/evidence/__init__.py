"""What the images say: tables, heads, landmarks, maps, and the hints that are taken from them. Nothing here decides what is tried."""
