#!/usr/bin/env bash
# Measures tables of SQLite that follow a feed: bench/run tables [OPTION]..
#
#   --folder PATH    a folder on the disk that is measured (default: a temporary one)
#   --changes N      how many changes are made, a tenth of them where each has a commit of its own (default: 400000)
#
# The feed is made for it: a table of four columns with a key, with inserts alone, or a quarter of them and then updates of any row. Told
# are the changes that `pgsub-connect tables --once` takes in a second, its start among them, what each takes of a processor, the same with
# --digests, what 20,000 transactions of pgbench take, and how long it takes from a commit in the
# feed until a SELECT sees it. Needs Debian's python3-psycopg.
source "$(dirname "$0")/../common.sh"
PYTHONPATH="$top/tools:$top/bench" /usr/bin/python3 "$here/tables.py" "$@"
