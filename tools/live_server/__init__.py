"""A real server, load on it, a follower that is killed, and what becomes of the copies (for
`tools/live`)."""
