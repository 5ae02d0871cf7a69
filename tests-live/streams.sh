#!/bin/sh
# Sends random byte streams to a server, one a connection, and compares every reply with a second reading of the stream by the real
# httparse and serde_json (streams/).
#
#   streams.sh PROGRAM [COUNT] [SEED]
#
# The second reading is a Rust program over the distribution's packages librust-httparse-dev and librust-serde-json-dev. COUNT is
# 20,000 streams if it is not given; a release tries 10,000,000.
set -u

tools='cargo curl python3'
. "$(dirname -- "$0")/common"
here=$(CDPATH='' cd -- "$(dirname -- "$0")" && pwd)
count=${2:-20000}
seed=${3:-1}
packages=/usr/share/cargo/registry
for package in httparse serde_json; do
    if ! ls -d "$packages/$package-"* >/dev/null 2>&1; then
        skip 'streams against a second reading' "librust-$(echo "$package" | tr _ -)-dev"
        finish
    fi
done
cp -r "$here/streams" "$work/streams" && cd "$work/streams" || exit 1
cat >"$work/cargo.toml" <<TOML
[source.crates-io]
replace-with = "distribution"
[source.distribution]
directory = "$packages"
TOML
if ! cargo build --release --offline --quiet --config "$work/cargo.toml" --target-dir "$work/target" >"$work/built" 2>&1; then
    cat "$work/built"
    check 'the second reading is built' yes no
    finish
fi
mkdir "$work/office" && cd "$work/office" || exit 1
server=
trap 'kill -9 $server 2>/dev/null; rm -rf "$work"' EXIT
"$program" init >/dev/null
port=$(python3 -B "$here/free_port.py")
"$program" serve --listen "127.0.0.1:$port" --workers 4 2>"$work/notes" &
server=$!

# Makes the bucket that many of the streams name.
makes_bucket() {
    curl --silent --noproxy '*' --max-time 60 -X PUT "http://127.0.0.1:$port/buckets/logs" | grep -q logs
}
within 60 makes_bucket || finish
"$work/target/release/streams" "127.0.0.1:$port" "$seed" "$count" 4
check "$count streams are answered as the second reading says" 0 $?
finish
