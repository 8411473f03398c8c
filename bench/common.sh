# What the scripts of bench/ begin with: `source "$(dirname "$0")/../common.sh"`. RT names the toolchain, if not rt.
set -eu
here="$(cd "$(dirname "$0")" && pwd)"
top="$(cd "$here/../.." && pwd)"
case "${1-}" in
    -h | --help) sed -n '2,/^[^#]/ s/^# \{0,1\}//p' "$0"; exit ;;
esac
work="$(mktemp -d)"
trap 'rm -r "$work"' EXIT
# (the connector is measured as it is installed: it is compiled once)
unset PYTHONDONTWRITEBYTECODE

# build NAME CRATE..: the program NAME, whose main file is main.rattle beside the script, over these crates with all that they stand on. A
# CRATE that isn't the repository's is a library of the toolchain.
build() {
    local name="$1" crate
    shift
    mkdir -p "$work/crates/$name/src"
    for crate in "$@"; do
        [ -d "$top/crates/$crate" ] || continue
        cp -a "$top/crates/$crate" "$work/crates/$crate"
        grep "^$crate:" "$top/crates.txt" >> "$work/crates.txt"
    done
    echo "$name: $*" >> "$work/crates.txt"
    cp "$here/main.rattle" "$work/crates/$name/src/main.rt"
    (cd "$work" && git init -q && cd "crates/$name" && "${RT:-rt}" run > "$work/build.log" 2>&1) || true
    program="$work/crates/$name/out/$name"
    [ -x "$program" ] || { tail "$work/build.log" >&2; return 1; }
}

# the baseline in C over libsqlite3
build_baseline() {
    if ! gcc -O2 -Wall -Wextra -o "$work/baseline" "$top/bench/subscriber/baseline.c" -lsqlite3; then
        echo "baseline.c can't be built; it needs SQLite's header and library (Debian: apt-get install libsqlite3-dev)" >&2
        return 1
    fi
}

# the middle one of the numbers on standard input, a number a line
median() {
    sort -n | awk '{ all[NR] = $1 } END { print all[int((NR + 1) / 2)] }'
}
