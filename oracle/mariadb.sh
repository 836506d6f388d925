#!/bin/sh
# Compare SUBSTRING_INDEX with a private MariaDB server, under utf8mb4 and,
# for the rows of ASCII letters alone, under latin1.
#
# usage: mariadb.sh LIST
#
# The server listens on a unix socket in a temporary folder only, runs as the
# user nobody, and is stopped and removed at the end.
set -eu

[ $# -eq 1 ] || { sed -n '2,8s/^# \{0,1\}//p' "$0" >&2; exit 64; }
here=$(cd "$(dirname "$0")" && pwd)
list=$(cd "$(dirname "$1")" && pwd)/$(basename "$1")

# The core packages of mariadb-server and its client: the programs, without a
# service of their own.
install_server() {
    [ -x /usr/sbin/mariadbd ] && [ -x /usr/bin/mariadb ] && return
    DEBIAN_FRONTEND=noninteractive apt-get install -y --no-install-recommends \
        mariadb-server-core mariadb-client-core >&2
}

# A prefix and not a function: in the background the prefix becomes the server
# itself, so that the number of the process is the server's.
as_server_user="setpriv --reuid=nobody --regid=nogroup --clear-groups --"

client() {
    mariadb --no-defaults --local-infile=1 --default-character-set=utf8mb4 \
        --batch --skip-column-names -S "$folder/socket" -u root "$@"
}

wait_until_up() {
    for _ in $(seq 60); do
        client -e 'select 1' >/dev/null 2>&1 && return
        sleep 0.5
    done
    echo "mariadb.sh: the server does not start" >&2
    cat "$folder/server.log" >&2
    exit 1
}

start_server() {
    chown nobody:nogroup "$folder"
    chmod 755 "$folder"
    # The caller's folder may be closed to the server's user.
    cd "$folder"
    $as_server_user mariadb-install-db --no-defaults --datadir="$folder/data" --skip-test-db \
        --auth-root-authentication-method=normal >"$folder/install.log" 2>&1
    $as_server_user mariadbd --no-defaults --datadir="$folder/data" --skip-networking \
        --socket="$folder/socket" --pid-file="$folder/pid" --local-infile=1 \
        --innodb-flush-log-at-trx-commit=0 >"$folder/server.log" 2>&1 &
    server=$!
    wait_until_up
}

stop_server() {
    if [ -n "$server" ]; then
        kill "$server" || true
        wait "$server" || true
    fi
    rm -rf "$folder"
}

load_list() {
    client <<END
create database oracle;
use oracle;
create table request(
    line int auto_increment primary key, kind varchar(8), row_hex text, pattern_hex text,
    number bigint, answer_hex text, place bigint) character set ascii;
load data local infile '$list' into table request
    (kind, row_hex, pattern_hex, number, answer_hex, place);
create view asked as
    select line, number,
        convert(unhex(replace(row_hex, '-', '')) using utf8mb4) as string,
        convert(unhex(replace(pattern_hex, '-', '')) using utf8mb4) as delimiter
    from request where kind = 'index';
END
}

# $1: the character set; $2: a condition on string and delimiter.
answer_under() {
    client oracle <<END
create table asked_$1(line int primary key, string text, delimiter text, number bigint)
    character set $1 collate $1_bin;
insert into asked_$1 select line, string, delimiter, number from asked where $2;
select line, hex(substring_index(string, delimiter, number)) from asked_$1 order by line;
END
}

compare() {
    answer_under "$1" "$2" >"$folder/answers.$1"
    python3 "$here/compare.py" "$list" "$folder/answers.$1" "MariaDB ($1)" index
}

install_server
folder=$(mktemp -d)
server=
trap stop_server EXIT
start_server
client -e 'select version()'
load_list
compare utf8mb4 true
# One byte a character is ASCII: the same bytes under either character set.
compare latin1 "length(concat(string, delimiter)) = char_length(concat(string, delimiter))"
