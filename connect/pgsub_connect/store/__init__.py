"""The files of a store: `file` reads its rows and makes copies one file, `checkpoint`
(`checkpoint_lines`) what is known of it, `repeats_file` which commits that come again may be
compared, `spool_folder` where open transactions go on, `placing` its names. `at_rest` gives it to
readers, who ask its follower by `socket_file`; `export` is a copy. Processes make tables
(`copied_rows`) and a feed's first rows (`base_files`)."""
