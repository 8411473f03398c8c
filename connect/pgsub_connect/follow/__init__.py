"""A follower: `follower` has its sessions (`session_start`, `session`, `schedule`), `fitness` what
is looked at before one, `filter_life` the filter between them (`spool_faults`), `upkeep` what goes
on meanwhile. `requests` come by `request_socket`: `snapshots`, `repair`. `settings` says how.
`drift_watch` and `altered` look at definitions, `server_watch` at the slot. `feed` has what reads
beside it: `process_beside`, `first_rows`, `feed_keeper`, `retention`."""
