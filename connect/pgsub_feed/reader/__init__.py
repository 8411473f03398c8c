"""The folder of a feed: its segments, lines and commits, and where each reader is."""
