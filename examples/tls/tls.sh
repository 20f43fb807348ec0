#!/usr/bin/env bash
# Carries a plan out over TLS, with a client certificate, between two tunnels of stunnel:
#
#     kmipctl run --socket S  <->  stunnel (client)  <=TLS=>  stunnel (server)  <->  kmipctl serve
#
#     examples/tls/tls.sh PROGRAM
#
# It makes a certificate authority and the certificates with openssl, starts the server and the tunnels,
# runs the plan, shows that a client with a certificate of another authority gets nothing and is told why,
# and ends what it started. All is done in out/tls, over 127.0.0.1. It needs openssl and stunnel; on Debian and Ubuntu
# they are the packages openssl and stunnel4.
set -euo pipefail

program=$(realpath "$1")
cd "$(dirname "$0")/../.."
plan=$PWD/examples/plan.toml
work=$PWD/out/tls

stunnel=$(command -v stunnel4 || command -v stunnel || true)
if [ -z "$stunnel" ] || ! command -v openssl > /dev/null; then
    echo "tls.sh: needs openssl and stunnel (on Debian: apt-get install openssl stunnel4)" >&2
    exit 2
fi

# What this script has started ends with it.
started=()
finish() {
    for process in "${started[@]}"; do kill "$process" 2> /dev/null || true; done
}
trap finish EXIT

# Waits until the command succeeds, a minute at most.
until_it_does() {
    for _ in $(seq 600); do
        if "$@" 2> /dev/null; then return; fi
        sleep 0.1
    done
    echo "tls.sh: waited in vain for: $*" >&2
    exit 1
}

# Only its owner may read the keys, or use the socket of the tunnel.
umask 077
rm -rf "$work"
mkdir -p "$work"
cd "$work"

# An authority: a key and a certificate that it has signed itself.
make_authority() {
    openssl req -x509 -newkey ec -pkeyopt ec_paramgen_curve:P-256 -nodes -days 1 -subj "/CN=$1" \
        -keyout "$1.key" -out "$1.pem" 2> /dev/null
}

# A certificate of the name $1 for the use $2 (serverAuth or clientAuth), signed by the authority $3.
make_certificate() {
    openssl req -newkey ec -pkeyopt ec_paramgen_curve:P-256 -nodes -subj "/CN=$1" \
        -keyout "$1.key" -out "$1.request" 2> /dev/null
    openssl x509 -req -in "$1.request" -days 1 -CA "$3.pem" -CAkey "$3.key" -CAcreateserial -out "$1.pem" \
        -extfile <(printf 'extendedKeyUsage=%s\nsubjectAltName=IP:127.0.0.1\n' "$2") 2> /dev/null
}

make_authority authority
make_authority other-authority
make_certificate server serverAuth authority
make_certificate client clientAuth authority
make_certificate stranger clientAuth other-authority

# The key server, which speaks no TLS: only the tunnel in front of it should reach it.
"$program" serve --port 0 --connections 1000 > serve.out &
started+=($!)
until_it_does grep -q listening serve.out
port=$(sed 's/listening //' serve.out)

# The tunnel in front of the server: it asks for a certificate of the authority.
# Below the ports that Linux gives to whoever connects (from 32768 on).
tls_port=$((20000 + RANDOM % 12000))
cat > server.conf <<END
foreground = yes
pid =
syslog = no
[kmip]
accept = 127.0.0.1:$tls_port
connect = 127.0.0.1:$port
cert = $work/server.pem
key = $work/server.key
CAfile = $work/authority.pem
verifyChain = yes
requireCert = yes
END
"$stunnel" server.conf > server.log 2>&1 &
started+=($!)
until_it_does bash -c ": < /dev/tcp/127.0.0.1/$tls_port"

# Starts a tunnel of the client named $1, on the Unix socket $1.socket.
start_client() {
    cat > "$1.conf" <<END
foreground = yes
pid =
syslog = no
[kmip]
client = yes
accept = $work/$1.socket
connect = 127.0.0.1:$tls_port
cert = $work/$1.pem
key = $work/$1.key
CAfile = $work/authority.pem
verifyChain = yes
checkIP = 127.0.0.1
END
    "$stunnel" "$1.conf" > "$1.log" 2>&1 &
    started+=($!)
    until_it_does test -S "$1.socket"
}

echo "A client with a certificate of the authority:"
start_client client
"$program" run --plan "$plan" --progress progress --socket client.socket

echo
echo "A client with a certificate of another authority gets nothing, and run, look and probe say why:"
start_client stranger
why="no reply from stranger.socket: the connection was closed before a reply (if there is a tunnel, see its log)"
gets_nothing() {
    if "$program" "$@" --socket stranger.socket 2> stranger.errors; then
        echo "tls.sh: the stranger was let in by $1" >&2
        exit 1
    fi
    cat stranger.errors >&2
    if ! grep -qF "$why" stranger.errors; then
        echo "tls.sh: $1 does not say: $why" >&2
        exit 1
    fi
}
gets_nothing run --plan "$plan" --progress stranger.progress --limit 2
gets_nothing look --plan "$plan" --give-up 2
gets_nothing probe --name-prefix stranger
echo
echo "What the tunnels say of it stands in $work/server.log and $work/stranger.log."
