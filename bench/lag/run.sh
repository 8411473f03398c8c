#!/usr/bin/env bash
# Measures how far followers are behind under load, beside PostgreSQL's subscription: bench/run lag [OPTION]..
#
#   --program PATH   the program to run (default: crates/pgsub/out/pgsub)
#   --folder PATH    a folder on the disk that is measured, for servers and stores (default: a temporary one)
#   --server N       PostgreSQL's major version (default: the newest that is there)
#   --root PATH      the root folder in which the servers run by chroot (default: none)
#   --seconds N      how long is written each time (default: 15)
#   --proto N        the version of the protocol of pgsub (default: 2)
#
# Four writers write at a PostgreSQL server, ten changes a transaction, which `pgsub-connect follow` and a subscription with
# synchronous_commit = on follow at once. It fails where rows differ. Needs PostgreSQL's server, and Debian's python3-psycopg.
source "$(dirname "$0")/../common.sh"
PYTHONPATH="$top/bench:$top/tools" /usr/bin/python3 "$here/lag.py" "$@"
