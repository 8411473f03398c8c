"""What a follower may meet, by theme. Each case has a server with an empty database, and a
store."""
