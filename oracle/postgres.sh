#!/bin/sh
# Compare split_part, ltrim, rtrim and btrim with a private PostgreSQL server.
#
# usage: postgres.sh LIST
#
# The server listens on a unix socket in a temporary folder only, runs as the
# user postgres, and is stopped and removed at the end.
set -eu

[ $# -eq 1 ] || { sed -n '2,7s/^# \{0,1\}//p' "$0" >&2; exit 64; }
here=$(cd "$(dirname "$0")" && pwd)
list=$(cd "$(dirname "$1")" && pwd)/$(basename "$1")

find_programs() {
    ls -d /usr/lib/postgresql/*/bin 2>/dev/null | sort -V | tail -n 1
}

# RUNLEVEL keeps the package from starting a server of its own.
install_server() {
    [ -z "$(find_programs)" ] || return 0
    RUNLEVEL=1 DEBIAN_FRONTEND=noninteractive apt-get install -y --no-install-recommends \
        postgresql >&2
}

# PostgreSQL refuses to run as root.
as_server_user() {
    setpriv --reuid=postgres --regid=postgres --clear-groups -- \
        env -i PATH="$programs:/usr/bin:/bin" LC_ALL=C.UTF-8 "$@"
}

start_server() {
    chown postgres:postgres "$folder"
    chmod 755 "$folder"
    # The caller's folder may be closed to the server's user.
    cd "$folder"
    as_server_user initdb -D "$folder/data" -U oracle --auth=trust \
        --encoding=UTF8 --locale=C.UTF-8 --no-sync >"$folder/initdb.log"
    as_server_user pg_ctl -D "$folder/data" -l "$folder/server.log" -w -s \
        -o "-c listen_addresses='' -c unix_socket_directories='$folder' -c fsync=off" start
}

stop_server() {
    as_server_user pg_ctl -D "$folder/data" -m fast -w -s stop || true
    rm -rf "$folder"
}

client() {
    "$programs/psql" -X -q -v ON_ERROR_STOP=1 -h "$folder" -U oracle -d postgres "$@"
}

load_list() {
    client <<END
create table request(
    line serial primary key, kind text, row_hex text, pattern_hex text,
    number int8, answer_hex text, place int8);
\copy request(kind, row_hex, pattern_hex, number, answer_hex, place) from '$list'
create function text_of_hex(field text) returns text immutable language sql as
    \$\$ select convert_from(decode(replace(field, '-', ''), 'hex'), 'UTF8') \$\$;
create view asked as
    select line, kind, number, text_of_hex(row_hex) as string, text_of_hex(pattern_hex) as pattern
    from request;
END
}

# $1: the kinds, quoted for SQL; $2: the call; $3: a further condition.
answer_with() {
    client -A -t -F "$(printf '\t')" -c "select line, encode(convert_to($2, 'UTF8'), 'hex')
        from asked where kind in ($1) and $3 order by line"
}

# The position of split_part is an int4: other numbers cannot be asked.
answer_all() {
    answer_with "'split'" "split_part(string, pattern, number::int4)" \
        "number between -2147483648 and 2147483647"
    answer_with "'left'" "ltrim(string, pattern)" true
    answer_with "'right'" "rtrim(string, pattern)" true
    answer_with "'both'" "btrim(string, pattern)" true
}

install_server
programs=$(find_programs)
folder=$(mktemp -d)
trap stop_server EXIT
start_server
client -A -t -c "select version()"
load_list
answer_all >"$folder/answers"
for kind in split left right both; do
    python3 "$here/compare.py" "$list" "$folder/answers" PostgreSQL "$kind"
done
