"""From a folder of images to the candidates: what the pages of reraid tell to do by hand, done in one go.

It reads the images alone, by the words and the output of `reraid` and of the checkers of file systems, and it chooses nothing.
"""
