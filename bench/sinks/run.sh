#!/usr/bin/env bash
# Measures sinks that follow a feed, beside tables of SQLite: bench/run sinks [OPTION]..
#
#   --folder PATH    a folder on the disk that is measured (default: a temporary one)
#   --changes N      how many changes are made, a tenth of them where each has a commit of its own (default: 400000)
#
# The feed is that of `bench/run tables`. Told are the changes that `pgsub-connect sink --once` takes in a second into servers of its own on
# this machine, its start among them, and what each takes of the reader's processor. Redis keeps a log of commands. Needs Debian's
# python3-psycopg, python3-redis, redis-server and nats-server.
source "$(dirname "$0")/../common.sh"
PYTHONPATH="$top/tools:$top/bench:$top/bench/tables" /usr/bin/python3 "$here/sinks.py" "$@"
