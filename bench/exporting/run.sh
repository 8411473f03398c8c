#!/usr/bin/env bash
# Measures `pgsub-connect export`: bench/run exporting [OPTION]..
#
#   --folder PATH    a folder on the disk that is measured (default: a temporary one)
#   --rows N         how many rows each store has (default: 1000000)
#   --turns N        how often each is exported (default: 3)
#
# The stores are made for it, each with one table: of four texts, of several types, and with nulls. Told is what an export takes of a
# processor without its start, for a million rows: the median, and each turn. Needs Debian's python3-psycopg.
source "$(dirname "$0")/../common.sh"
PYTHONPATH="$top/tools:$top/bench" /usr/bin/python3 "$here/exporting.py" "$@"
