#!/usr/bin/env bash
# Measures how fast each kind of change is followed, beside PostgreSQL's default subscription: bench/run loads [OPTION]..
#
#   --program PATH  the program to run (default: crates/pgsub/out/pgsub)
#   --folder PATH   a folder on the disk that is measured, for servers and stores (default: a temporary one)
#   --server N      PostgreSQL's major version (default: the newest that is there)
#   --root PATH     the root folder in which the servers run by chroot (default: none)
#   --proto N       the version of the protocol (default: the newest that the server has)
#   --turns N       how often each takes it (default: 5)
#   --rows N        how many changes each load has (default: 5,000 to 5,000,000, by the load)
#   --only WORD     only loads whose name has this word
#
# Inserts with rising and random keys, of wide rows and large texts, deletes and updates, tables without a key, many tables, one large
# transaction: each is a backlog at a PostgreSQL server, followed from slots made before it, in turn, by a subscription as by default
# (synchronous_commit = off) and by `pgsub-connect follow`, all on one disk with fsync on; loads.py tells what is timed, kinds.py what is
# changed. It fails where rows differ. Needs PostgreSQL's server, and Debian's python3-psycopg.
source "$(dirname "$0")/../common.sh"
PYTHONPATH="$top/bench:$top/tools" /usr/bin/python3 "$here/loads.py" "$@"
