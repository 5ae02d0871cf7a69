#!/bin/sh
# Starts nginx with tools/proxy/nginx.conf and a certificate of its own in front of a server, all on loopback, and shows who gets in
# where: by login, role, method and path, and by the limits of rate and body.
#
#   proxy.sh PROGRAM
set -u

tools='chmod cp curl date grep mkdir nginx openssl python3 sed sleep'
root=$(CDPATH='' cd -- "$(dirname -- "$0")/.." && pwd) || exit 1
. "$root/tests-live/common"
cd "$work" || exit 1
server=
proxy=
trap 'kill -9 $server 2>/dev/null; [ -z "$proxy" ] || kill "$proxy" 2>/dev/null; sleep 0.1; rm -rf "$work"' EXIT

ports=$(python3 -B "$root/tests-live/free_port.py" 3)
# shellcheck disable=SC2086
set -- $ports
behind=$1
front=$3
chmod 755 "$work"
mkdir temp
sed "s/127.0.0.1:8080/127.0.0.1:$behind/; s/127.0.0.1:8079/127.0.0.1:$2/; s/listen 8443/listen 127.0.0.1:$front/; \
    s/server_name office.example/server_name office.example localhost/" \
    "$root/tools/proxy/nginx.conf" >nginx.conf
cp "$root/tools/proxy/roles" roles
for login in anna ben clerk dora; do
    echo "$login:$(openssl passwd -6 "secret-of-$login")"
done >users
if ! openssl req -x509 -newkey rsa:2048 -nodes -days 1 -subj /CN=office.example -addext subjectAltName=DNS:office.example,DNS:localhost \
    -keyout key.pem -out cert.pem 2>notes; then
    skip proxy 'openssl that makes a certificate'
    finish
fi
# Starts the server behind, and waits until it answers.
start() {
    "$program" serve --listen "127.0.0.1:$behind" --workers 1 2>notes &
    server=$!
    within 60 curl --silent --noproxy '*' --output reply "http://127.0.0.1:$behind/buckets/none"
}

"$program" init >said
start
check 'nginx -t' 0 "$(nginx -p "$work" -c "$work/nginx.conf" -t 2>tested; echo $?)"
# Starts the proxy, which writes its number once it listens.
start_proxy() {
    nginx -p "$work" -c "$work/nginx.conf" -g 'daemon off;' 2>>noted &
    proxy=$!
    within 60 [ -s nginx.pid ]
}
start_proxy

# curl to the proxy, with a login or without one (-): the status of the reply.
ask() {
    login=$1
    shift
    [ "$login" = - ] || set -- --user "$login" "$@"
    curl --silent --noproxy '*' --max-time 60 --cacert cert.pem --resolve "office.example:$front:127.0.0.1" --path-as-is --output reply \
        --write-out '%{http_code}' "$@"
}

check 'the health check, without a login' '200:the office replies' "$(ask - "https://office.example:$front/health"):$(cat reply)"
check 'the health check takes no other method' 403 "$(ask - -X PUT --data '{"size":5}' "https://office.example:$front/health")"
check 'what is beside it needs a login' 401 "$(ask - "https://office.example:$front/health/")"
at=https://office.example:$front/buckets/logs
month=$(date -u +%Y-%m)
check 'no login' 401 "$(ask - "$at")"
check 'an unknown login' 401 "$(ask eve:x "$at")"
check 'a wrong password' 401 "$(ask anna:x "$at")"
check 'a wrong password where the role may not go' 401 "$(ask clerk:x -X PUT "$at")"
for who in anna:secret-of-anna:201:201:200:200 ben:secret-of-ben:403:403:200:200 clerk:secret-of-clerk:403:403:403:200 \
    dora:secret-of-dora:403:403:403:403; do
    login=$(echo "$who" | sed 's/^\([^:]*:[^:]*\):.*/\1/')
    name=${login%%:*}
    role=$(sed -n "s/^$name \(.*\);/\1/p" roles)
    wanted=${who#"$login":}
    check "$name, ${role:-no role}: makes a bucket, puts an object, reads the bucket, reads the meters" "$wanted" "$(
        ask "$login" -X PUT "$at"):$(ask "$login" -X PUT --data '{"size":1000}' "$at/objects/a/b%20c"):$(ask "$login" "$at"):$(
        ask "$login" "$at/meters/$month")"
done
check 'what was put is there once' '"versions":1' "$(ask anna:secret-of-anna "$at" >code; grep -o '"versions":[0-9]*' reply)"
# Puts an object of this size with a token.
once() {
    ask anna:secret-of-anna -X PUT -H 'office-token: p1' --data "{\"size\":$1}" "$at/objects/once"
}
check 'a token reaches the program' '201 201 409' "$(once 7) $(once 7) $(once 8)"
root_at=https://office.example:$front
check 'billing reads a report, as the program answers without prices' 409 "$(ask clerk:secret-of-clerk "$root_at/months/$month/report")"
check 'billing closes no month and sets no prices' '403 403' \
    "$(ask clerk:secret-of-clerk -X POST "$root_at/months/$month/close") $(ask clerk:secret-of-clerk -X PUT "$root_at/tariff")"
check 'billing by a path that nginx reads as meters' 403 "$(ask clerk:secret-of-clerk "$at/objects/../meters/$month")"
check 'billing with a query behind the path' 403 "$(ask clerk:secret-of-clerk "$at/meters/$month?x")"
check 'reading with a method of its own' 403 "$(ask ben:secret-of-ben -X PATCH "$at")"
direct=http://127.0.0.1:$behind/buckets/logs/lifecycle
check 'reading another target, as the program answers' "$(curl --silent --noproxy '*' --output reply --write-out '%{http_code}' "$direct")" \
    "$(ask ben:secret-of-ben "$at/lifecycle")"

# The tools behind the proxy, for those who have no account on the machine. The name has to be one that this machine finds.
usage() {
    SSL_CERT_FILE=$work/cert.pem OFFICE_PASSWORD=$2 "$root/tools/usage" --from "https://$1@localhost:$front" --bucket logs "$month" \
        >told 2>notes </dev/null
    echo "$? $(grep -c ^logs, told)"
}
check 'tools/usage by billing' '0 1' "$(usage clerk secret-of-clerk)"
check 'tools/usage with a wrong password' '2 0' "$(usage clerk x)"
check 'tools/usage by a login without a role' '2 0' "$(usage dora secret-of-dora)"
check 'and why' 1 "$(grep -c '403 the login may not ask this' notes)"
check 'tools/usage without the certificate' '2' "$(OFFICE_PASSWORD=x "$root/tools/usage" --from "https://clerk@localhost:$front" \
    --bucket logs "$month" 2>notes; echo $?)"
check 'tools/usage without a password' '1' "$("$root/tools/usage" --from "https://clerk@localhost:$front" --bucket logs "$month" \
    2>notes </dev/null; echo $?)"
check 'tools/usage with the password in its words' '1' "$("$root/tools/usage" --from "https://clerk:x@localhost:$front" --bucket logs \
    "$month" 2>notes; echo $?)"
check 'a login without TLS' '1' "$("$root/tools/usage" --from "http://clerk@localhost:$front" --bucket logs "$month" 2>notes; echo $?)"

check 'a body in chunks, which the program alone refuses' 201 \
    "$(printf '{"size":5}' | ask anna:secret-of-anna --upload-file - -H 'Transfer-Encoding: chunked' "$at/objects/chunked")"
check 'fields of 12,000 bytes, which the program alone refuses' 201 \
    "$(ask anna:secret-of-anna -X PUT -H "X-1: $(printf '%06000d' 0)" -H "X-2: $(printf '%06000d' 0)" --data '{"size":5}' "$at/objects/f")"
check 'a key with a byte 0' 400 "$(ask anna:secret-of-anna -X PUT --data '{"size":5}' "$at/objects/a%00b")"
check 'a target that goes above its root' 400 "$(ask anna:secret-of-anna "$at/../../../x")"
check 'a key that only looks so' 201 "$(ask anna:secret-of-anna -X PUT --data '{"size":5}' "$at/objects/a/../b//c")"
printf '%070000d' 0 >large
check 'a body above 64 KiB' 413 "$(ask anna:secret-of-anna -X PUT --data-binary @large "$at/objects/large")"
check 'plain HTTP' 400 "$(curl --silent --noproxy '*' --output reply --write-out '%{http_code}' "http://127.0.0.1:$front/")"
check 'TLS 1.1' 000 "$(ask anna:secret-of-anna --tls-max 1.1 --ciphers DEFAULT@SECLEVEL=0 "$at")"
check 'TLS 1.2' 200 "$(ask ben:secret-of-ben --tls-max 1.2 "$at")"
check 'another name' 000 "$(ask anna:secret-of-anna --insecure --resolve "evil.example:$front:127.0.0.1" "https://evil.example:$front/")"
check 'another name in the field Host alone' 421 "$(ask anna:secret-of-anna -H 'Host: evil.example' "$at")"

# A client that sends half a request, beside the one worker.
{
    printf 'PUT /buckets/logs/objects/slow HTTP/1.1\r\nHost: office.example\r\nAuthorization: Basic %s\r\nContent-Length: 100\r\n\r\n{' \
        "$(printf 'anna:secret-of-anna' | openssl base64)"
    sleep 30
} | openssl s_client -quiet -connect "127.0.0.1:$front" -servername office.example >slow 2>&1 &
slow=$!
sleep 0.5
check 'a slow client holds no worker' 200 "$(ask anna:secret-of-anna --max-time 20 "$at")"
kill "$slow" 2>/dev/null

kill -9 "$server"
wait "$server" 2>/dev/null
check 'a server that was killed' 502 "$(ask ben:secret-of-ben "$at")"
check 'and its health check' 502 "$(ask - "https://office.example:$front/health")"
start
check 'and started again' 200 "$(ask ben:secret-of-ben "$at")"
check 'the log has who asked, twice' 2 "$(grep -c " clerk \"GET /buckets/logs/meters/$month\" 200 " access.log)"

# The same limit with smaller numbers, so that a slow machine passes it too.
sed 's/rate=50r/rate=1r/; s/burst=100/burst=10/' nginx.conf >slower && mv slower nginx.conf
kill -QUIT "$proxy"
wait "$proxy"
start_proxy
ask ben:secret-of-ben "https://office.example:$front/buckets/many-[100-159]" --write-out '%{http_code}\n' >codes
check 'more than the rate: some are served, some are not' yes \
    "$([ "$(grep -c '^404' codes)" -ge 10 ] && [ "$(grep -c '^429' codes)" -gt 0 ] && echo yes || echo no)"

finish
