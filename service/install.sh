#!/bin/bash
# Does steps 2 to 5 of service/README.md on Debian 12, as root: program, user, units, store, start, proxy.
# It asks nothing, may be run again at any time, and says in the end what is left to do.
#
#     service/install.sh [--program FILE] [--profile PROFILE] [--depth DEPTH] [--root FOLDER]
#
# --program is crates/ox_main/out/ox_main without a word, the proved one. --profile and --depth are of a store
# that isn't there yet: mainnet and 100. With --root everything goes below a folder, and nothing of the system
# is touched: no user, no start.
set -euo pipefail
top=$(cd "$(dirname "${BASH_SOURCE[0]}")/.." && pwd)
program=$top/crates/ox_main/out/ox_main profile=mainnet depth=100 root=
left=()

usage() {
    sed -n '2,/^set /{/^set /d;s/^# \{0,1\}//;p}' "${BASH_SOURCE[0]}"
}

fail() {
    echo "install.sh: $1" >&2
    exit 1
}

say() {
    echo "$1"
}

while [ $# -gt 0 ]; do
    case $1 in
    --program | --profile | --depth | --root)
        [ $# -gt 1 ] || fail "$1 wants a word behind it"
        declare "${1#--}=$2"
        shift 2
        ;;
    -h | --help)
        usage
        exit 0
        ;;
    *)
        usage >&2
        fail "there is no word $1"
        ;;
    esac
done

[ -n "$root" ] || [ "$(id -u)" = 0 ] || fail "it has to run as root, or with --root FOLDER"
[ -x "$program" ] || fail "there is no program $program: \`./ox prove\` makes it, or name another one by --program"
command -v python3 > /dev/null || fail "there is no python3 (apt-get install python3)"
command -v flock > /dev/null || fail "there is no flock (apt-get install util-linux)"
lib=$root/usr/lib/ox doc=$root/usr/share/doc/ox units=$root/etc/systemd/system store=$root/var/lib/ox
credentials=$root/etc/ox/node lines=$root/etc/ox/bitcoin.conf

# runs a command as the program's user
as_ox() {
    if [ -n "$root" ]; then "$@"; else runuser -u ox -- "$@"; fi
}

install_program() {
    if [ -z "$root" ] && ! id ox > /dev/null 2>&1; then
        adduser --quiet --system --group --no-create-home --home /var/lib/ox ox
    fi
    # by a new file, so that a running program keeps its own
    install -D -m 755 "$program" "$lib/ox.new"
    mv -f "$lib/ox.new" "$lib/ox"
    install -m 755 "$top"/service/ox_{feed,ended,words}.py "$lib/"
    install -d "$root/usr/bin"
    ln -sfn ../lib/ox/ox_words.py "$root/usr/bin/ox"
    install -D -m 644 -t "$doc" "$top/docs/OPERATING.md" "$top/docs/FORMATS.md"
    install -D -m 644 -t "$units" "$top/service/ox.service" "$top/service/ox-feed.service"
    say "program: $lib/ox, with its feeder and units"
}

# a password for the node's user, and the lines that the node has to know of it
install_credentials() {
    install -d -m 700 "$root/etc/ox"
    if [ -s "$credentials" ]; then
        say "credentials: $credentials is there, and stays"
    else
        python3 - "$credentials" "$lines" << 'END'
import hmac, os, secrets, sys
password, salt = secrets.token_urlsafe(32), secrets.token_hex(16)
digest = hmac.new(salt.encode(), password.encode(), "SHA256").hexdigest()
calls = "getblockchaininfo,getblockhash,getblock,getblockheader"
lines = ["server=1", "rest=1", f"rpcauth=ox:{salt}${digest}", f"rpcwhitelist=ox:{calls}"]
for name, text in (sys.argv[2], lines + ["rpcwhitelistdefault=0"]), (sys.argv[1], [f"ox:{password}"]):
    with open(os.open(name, os.O_WRONLY | os.O_CREAT | os.O_TRUNC, 0o600), "w") as kept:
        kept.write("\n".join(text) + "\n")
END
        say "credentials: $credentials, a new password"
    fi
    if [ -s "$lines" ]; then
        left+=("the node's bitcoin.conf wants the lines of $lines, and a new start, if it hasn't had them yet")
    fi
}

install_store() {
    if [ -z "$root" ]; then
        install -d -o ox -g ox -m 750 "$store"
    else
        install -d -m 750 "$store"
    fi
    if [ -s "$store/a.ox" ] || [ -s "$store/b.ox" ]; then
        say "store: $store is there, and stays"
        return
    fi
    sync
    as_ox flock --nonblock "$store" "$lib/ox" "$store" init "$profile" "$depth" > /dev/null ||
        fail "\`init $profile $depth\` ended with $? in $store"
    say "store: $store, of $profile, which keeps $depth blocks"
}

start_services() {
    if [ -n "$root" ] || [ ! -d /run/systemd/system ]; then
        left+=("start it, where systemd runs: systemctl daemon-reload; systemctl enable --now ox ox-feed")
        return
    fi
    systemctl daemon-reload
    systemctl enable --quiet ox ox-feed
    systemctl restart --no-block ox ox-feed
    say "services: ox and ox-feed are started, and will be at each start of the machine"
    left+=("watch it reach the node's tip: journalctl -fu ox-feed, and curl http://127.0.0.1:8080/status")
}

install_proxy() {
    local config=$root/etc/haproxy/haproxy.cfg pem=$root/etc/haproxy/ox.pem made
    if [ -z "$root" ] && ! PATH=$PATH:/usr/sbin command -v haproxy > /dev/null; then
        left+=("for a proxy in front: apt-get install haproxy, and run this again")
        return
    fi
    install -d "$root/etc/haproxy"
    # one machine: the lines of the second are left out
    made=$(grep -vE "OX_TWO| two(_behind)? " "$top/service/haproxy.cfg")
    if [ -e "$config" ] && [ "$made" = "$(cat "$config")" ]; then
        say "proxy: $config is there, and stays"
    else
        if [ -e "$config" ] && [ ! -e "$config.before-ox" ]; then cp -p "$config" "$config.before-ox"; fi
        echo "$made" > "$config"
        say "proxy: $config (what stood there is $config.before-ox)"
    fi
    if [ ! -s "$pem" ]; then
        left+=("put certificate and key, one behind the other, into $pem, and run this again")
    elif [ -z "$root" ] && [ -d /run/systemd/system ]; then
        systemctl reload-or-restart haproxy
        say "proxy: it is started"
    else
        left+=("start the proxy: systemctl reload-or-restart haproxy")
    fi
}

install_program
install_credentials
install_store
start_services
install_proxy
echo
echo "What is left to do:"
for each in "${left[@]}"; do
    echo "- $each"
done
