#!/bin/sh
# Build the oracle from the crate's own sources and write its list.
#
# usage: make.sh CRATE [LIST]
#
# CRATE  a folder with the unchanged sources of datafusion-functions
#        (CRATE/src/string/split_part.rs and so on)
# LIST   the file to write; standard output if not given
set -eu

here=$(cd "$(dirname "$0")" && pwd)
registry=/usr/share/cargo/registry

usage() {
    sed -n '2,8s/^# \{0,1\}//p' "$0" >&2
    exit 64
}

install_memchr() {
    ls -d "$registry"/memchr-* >/dev/null 2>&1 && return
    DEBIAN_FRONTEND=noninteractive apt-get install -y --no-install-recommends \
        librust-memchr-dev >&2
}

# The crate's code goes only into the build folder, never beside the harness.
prepare_build() {
    cp -r "$here/harness/." "$build"
    python3 "$here/extract.py" "$1" "$build/extracted"
    mkdir "$build/.cargo"
    cat >"$build/.cargo/config.toml" <<END
[source.crates-io]
replace-with = "debian"
[source.debian]
directory = "$registry"
[env]
EXTRACTED = "$build/extracted"
END
}

compile_oracle() {
    (cd "$build" && cargo build --offline --quiet --release)
    rustc --version >&2
    grep -A1 'name = "memchr"' "$build/Cargo.lock" | sed -n 's/version =/memchr/p' >&2
}

[ $# -eq 1 ] || [ $# -eq 2 ] || usage
install_memchr
build=$(mktemp -d)
trap 'rm -rf "$build"' EXIT
prepare_build "$1"
compile_oracle
# Status 2 says that forms disagree: the list is written, without those requests.
status=0
"$build/target/release/oracle" >"$build/list.tsv" || status=$?
[ "$status" -eq 0 ] || [ "$status" -eq 2 ] || exit "$status"
if [ $# -eq 2 ]; then
    cp "$build/list.tsv" "$2"
else
    cat "$build/list.tsv"
fi
exit "$status"
