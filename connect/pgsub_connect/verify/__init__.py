"""The copy and its server compared as of one LSN, and the rows that differ repaired: tables one by
one (`comparison`) by `digests` of both `sides`. A running follower's copy: `store`, `repair_rows`.
Tables that follow a feed: `tables_file`, `view`."""
