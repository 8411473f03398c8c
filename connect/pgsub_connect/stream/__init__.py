"""The stream: `filter` is the program (`filter_input`, `filter_end`, `watch_lines`, `room`),
`messages` its frames, `statuses` what it confirms. Of what passes `stream_log` notes counts and
tables, `transactions` those under way and one that is passed over, `missed_rows` changes without a
row; `hold` and `gate` stop it. `memory_limit` is how much may wait, `awake` how, `common` what all
have."""
