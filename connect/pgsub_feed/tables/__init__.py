"""Tables of SQLite that follow a feed: `following` keeps a `file` and takes it back (`schema`,
`sqlite_files`), made by `first_rows`, to which `applier` makes the changes, joined. `table` and
`target` are one table, `values` its cells (`floats`, `stored_rows`), `names` its names, `reshape`
its other shapes, `indexes` its keys and indexes; `set_aside` those left out. `digests` are of
printed rows; `user_sql` is the user's."""
