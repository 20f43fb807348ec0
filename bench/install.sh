#!/usr/bin/env bash
# Installs the program into a scratch folder, and carries out a timer's day there with what was installed: a look, a
# run, a list, the metrics, a look. The commands are those of the installed services. A server of the program stands
# behind a Unix socket, as it does behind a tunnel. Then it uninstalls all, and looks for what is left.
#
#     bench/install.sh PROGRAM FOLDER
#
# Each row prints what it looks at and `ok`, or what is wrong, or why it is skipped. The last line is
# `N rows, M wrong`, and the exit status 0 where none is. It needs python3 and make. The man pages are rendered where
# groff is there, the units verified where systemd-analyze is there, and the package made where dpkg-deb is there.
set -uo pipefail

program=$(realpath "$1")
work=$(realpath -m "$2")
cd "$(dirname "$0")/.." || exit 1
top=$PWD
unset MAKEFLAGS MAKELEVEL

rm -rf "$work"
mkdir -p "$work"
root=$work/root place=$work/root/usr/local
rows=0 wrong=0
umask 022

# What this script has started ends with it.
started=()
finish() {
    for process in "${started[@]}"; do kill "$process" 2> /dev/null || true; done
}
trap finish EXIT

# Looks whether what a row says is what it has to be: $1 names the row, $2 is said, $3 wanted.
look() {
    rows=$((rows + 1))
    if [ "$2" == "$3" ]; then
        echo "$1: ok"
    else
        wrong=$((wrong + 1))
        printf '%s: wrong\n    said   %q\n    wanted %q\n' "$1" "$2" "$3"
    fi
}

skip() {
    echo "$1: skipped, this machine has no $2"
}

# Waits until the command succeeds, a minute at most.
until_it_does() {
    for _ in $(seq 600); do
        if "$@" 2> /dev/null; then return; fi
        sleep 0.1
    done
    echo "install.sh: waited in vain for: $*" >&2
    exit 1
}

# What a command prints and its exit status, on one line each.
said() {
    "$@" 2>&1
    echo "status $?"
}

# The files below $1 that are none of the list below $2, and those of the list that are not there.
differing() {
    diff <(cd "$1" && find . -type f | sed 's#^\./##' | sort) <(sort "$2") | grep '^[<>]'
}

# The words of the command of an installed service, with paths from the scratch folder on: that of a socket has at most
# 107 bytes.
words_of() {
    sed -n '/^ExecStart=/{:more;/\\$/{N;s/\\\n *//;bmore};s/^ExecStart=//p}' "$place/lib/systemd/system/$1" |
        sed -E 's#(^| )/#\1#g'
}

install_and_look() {
    look 'installing builds nothing' "$(make -n install program=none DESTDIR=to)" "tools/install.sh install 'none' '/usr/local' 'to'"
    look 'a program that is not built' "$(said tools/install.sh install none /usr/local "$root")" \
        "install.sh: there is no program none: run make first, as a user that is not root; installing builds nothing
status 1"
    look 'then nothing is copied' "$(find "$work" -mindepth 1)" ''
    look 'a PREFIX of no whole path' "$(said tools/install.sh install "$program" usr "$root")" \
        "install.sh: PREFIX is 'usr', and has to begin with /
status 1"
    make -s install program="$program" DESTDIR="$root" > "$work/install.out"
    look 'what is installed is what the list says' "$(differing "$place" "$place/share/doc/kmipctl/INSTALLED")" ''
    look 'all can read it' "$(find "$root" ! -perm -044)" ''
    look 'nothing else was written' "$(ls "$root" "$root/usr")" "$(printf '%s:\nusr\n\n%s/usr:\nlocal' "$root" "$root")"
    look 'the program is the one that was built' "$(cmp "$program" "$place/bin/kmipctl" 2>&1)" ''
    look 'the scripts of the shells are what the program prints' \
        "$(cd "$place/share" && head -qn 3 bash-completion/completions/kmipctl zsh/site-functions/_kmipctl fish/vendor_completions.d/kmipctl.fish |
            sed -n 's/.*made by `\(.*\)`.*/\1/p')" \
        "$(printf 'kmipctl completions %s\n' bash zsh fish)"
    for shell in bash zsh fish; do
        look "all of that of $shell" "$("$place/bin/kmipctl" completions "$shell" | diff -q - "$(find "$place/share/$shell"* -type f)")" ''
    done
    look 'its version' "$("$place/bin/kmipctl" --version)" "$(python3 tools/package.py made-of | sed -n '1p;3p')"
}

look_at_pages() {
    look 'the help is what the man pages are made of' "$(python3 tools/man_pages.py "$place/bin/kmipctl")" '10 commands, 0 wrong'
    look 'a page for each command' \
        "$("$place/bin/kmipctl" --help | sed -n '/^Commands:/,/^$/s/^  \([a-z]*\) .*/\1/p' | grep -v help | sort)" \
        "$(cd "$place/share/man/man1" && find . -name 'kmipctl-*' | sed 's/.*kmipctl-\(.*\)\.1/\1/' | sort)"
    if command -v groff > /dev/null; then
        look 'man pages are rendered' "$(groff -man -Tutf8 -ww -z "$place"/share/man/man[15]/* 2>&1)" ''
    else
        skip 'man pages are rendered' groff
    fi
}

# The units are verified below another root, with empty programs for the tunnel and targets without content.
look_at_units() {
    if ! command -v systemd-analyze > /dev/null; then
        skip 'units are verified' systemd-analyze
        return
    fi
    local other=$work/verified unit
    make -s install program="$program" PREFIX=/usr DESTDIR="$other" > "$work/install-usr.out"
    for unit in sysinit basic shutdown timers multi-user network-online; do
        printf '[Unit]\nDescription=%s\n' "$unit" > "$other/usr/lib/systemd/system/$unit.target"
    done
    install -D -m 755 /dev/null "$other/usr/bin/stunnel4"
    install -D -m 755 /dev/null "$other/bin/kill"
    for unit in "$other"/usr/lib/systemd/system/kmipctl-*; do
        look "${unit##*/} is verified" "$(said systemd-analyze verify --man=no --root="$other" "$unit")" 'status 0'
    done
    look 'PREFIX stands in the units' "$(grep -rh ^ExecStart=/ "$other/usr/lib/systemd/system" | cut -d' ' -f1 | sort -u)" \
        "$(printf 'ExecStart=/usr/bin/kmipctl\nExecStart=/usr/bin/stunnel4')"
    if command -v systemd-sysusers > /dev/null; then
        look 'the user is made' \
            "$(systemd-sysusers --root="$other" --dry-run "$other/usr/lib/sysusers.d/kmipctl.conf" 2>&1 |
                grep -o "^Creating user 'kmipctl'")" \
            "Creating user 'kmipctl'"
    else
        skip 'the user is made' systemd-sysusers
    fi
    look 'tmpfiles.d makes the folders that the units write to' \
        "$(sed -n 's/^d \([^ ]*\) .*/\1/p' "$other/usr/lib/tmpfiles.d/kmipctl.conf" | sort)" \
        "$(sed -n 's#^StateDirectory=#/var/lib/#p; s/^ReadWritePaths=//p' "$other"/usr/lib/systemd/system/kmipctl-*.service | sort -u)"
    if command -v systemd-tmpfiles > /dev/null; then
        mkdir -p "$other/etc"
        printf 'kmipctl:x:%s:%s::/:\n' "$(id -u)" "$(id -g)" > "$other/etc/passwd"
        printf 'kmipctl:x:%s:\n' "$(id -g)" > "$other/etc/group"
        look 'the folders are made' \
            "$(systemd-tmpfiles --root="$other" --create "$other/usr/lib/tmpfiles.d/kmipctl.conf" 2>&1
                cd "$other/var/lib" && stat -c '%a %n' ./*)" "$(printf '700 ./kmipctl\n755 ./kmipctl-metrics')"
    else
        skip 'the folders are made' systemd-tmpfiles
    fi
}

# Starts the server, and what hands the bytes of the Unix socket on to it.
start_server() {
    mkdir -p "$root/etc/kmipctl" "$root/var/lib/kmipctl" "$root/var/lib/kmipctl-metrics" "$root/run/kmipctl"
    cp "$place/share/doc/kmipctl/examples/plan.toml" "$root/etc/kmipctl/plan.toml"
    "$place/bin/kmipctl" serve --port 0 --connections 1000 --verbose > "$work/serve.out" 2> "$work/serve.log" &
    started+=($!)
    until_it_does grep -q listening "$work/serve.out"
    python3 - "$root/run/kmipctl" "$(sed 's/listening //' "$work/serve.out")" <<'PYTHON' &
import os, socket, sys, threading

def hand_on(source, target):
    while data := source.recv(65536):
        target.sendall(data)
    target.shutdown(socket.SHUT_WR)

os.chdir(sys.argv[1])
listening = socket.socket(socket.AF_UNIX)
listening.bind('server.socket')
listening.listen()
while True:
    client, server = listening.accept()[0], socket.create_connection(('127.0.0.1', int(sys.argv[2])))
    for ends in (client, server), (server, client):
        threading.Thread(target=hand_on, args=ends, daemon=True).start()
PYTHON
    started+=($!)
    until_it_does test -S "$root/run/kmipctl/server.socket"
}

timers_day() {
    local look run progress=var/lib/kmipctl/plan.progress asked names
    local metrics=var/lib/kmipctl-metrics/kmipctl.prom looked=var/lib/kmipctl-metrics/kmipctl-look.prom
    cd "$root" || exit 1
    read -ra look <<< "$(words_of kmipctl-look.service)"
    read -ra run <<< "$(words_of kmipctl-run.service)"
    look 'a look at night' "$(said "${look[@]}" | sed 's/ - none to do: .*/ to do/')" "$(
        sed -n 's/^name = "\(.*\)"/\1/p; s/^target = "\(.*\)"/\1 to do/p' etc/kmipctl/plan.toml | paste -d' ' - -
        echo 'finished 0 of 7'
        echo 'status 1'
    )"
    look 'a run' "$(said "${run[@]}" | sed 's/ .*finished$/ finished/; s/ [0-9]*$//')" "$(
        sed -n 's/^name = "\(.*\)"/\1 finished/p' etc/kmipctl/plan.toml
        printf 'finished 7 of\nstop AllFinished\nstatus'
    )"
    asked=$(wc -l < "$work/serve.log")
    look 'a run an hour later' "$("${run[@]}" 2> /dev/null | tail -1)" 'stop AllFinished 0'
    look 'it looks at each key, and changes none' "$(tail -n "+$((asked + 1))" "$work/serve.log" | cut -d' ' -f1 | sort | uniq -c)" \
        "$(printf '      7 GetAttributes\n      7 Locate')"
    look 'what Ansible reads of it' "$("${run[@]}" --json 2> /dev/null | tail -1 | grep -o '"steps":[0-9]*')" '"steps":0'
    look 'a list' "$("${run[0]}" list --plan etc/kmipctl/plan.toml --progress "$progress" 2> /dev/null | tail -1)" \
        'finished 7 of 7'
    look 'the metrics' "$(grep '^kmipctl_keys\|^kmipctl_run_in' "$metrics")" "$(
        printf 'kmipctl_keys{plan="etc/kmipctl/plan.toml",verdict="%s"} %s\n' finished 7 working 0 conflict 0
        echo 'kmipctl_run_in_progress{plan="etc/kmipctl/plan.toml"} 0'
    )"
    look 'a look in the next night' "$(said "${look[@]}" | tail -2)" "$(printf 'finished 7 of 7\nstatus 0')"
    look 'the metrics of a look' "$(grep '^kmipctl_look_keys' "$looked")" \
        "$(printf 'kmipctl_look_keys{plan="etc/kmipctl/plan.toml",verdict="%s"} %s\n' finished 7 working 0 conflict 0 not_told 0)"
    names=$(grep -oE 'kmipctl_[a-z_]+' "$place/share/doc/kmipctl/examples/prometheus/alerts.yml" | sort -u)
    look 'the alerts are on these metrics' \
        "$(for name in $names; do grep -q "^${name}[ {]" "$metrics" "$looked" || echo "$name"; done)" ''
    look 'who may read them' "$(stat -c '%a' "$metrics" "$looked" "$progress")" "$(printf '644\n644\n600')"
    cd "$top" || exit 1
}

look_at_packages() {
    local tar made
    tar=$(make -s dist program="$program")
    mkdir -p "$work/unpacked"
    tar -xf "$tar" -C "$work/unpacked"
    made=("$work"/unpacked/*)
    look 'the sums of the tar' "$(cd "${made[0]}" && sha256sum --quiet -c SHA256SUMS 2>&1)" ''
    look 'each file of it has a sum' \
        "$(differing "${made[0]}" <(sed 's/^[0-9a-f]*  //' "${made[0]}/SHA256SUMS"; echo SHA256SUMS))" ''
    look 'it has what is installed' \
        "$(differing "${made[0]}" <(printf 'MADE-OF\nSHA256SUMS\n'; cat "$place/share/doc/kmipctl/INSTALLED"))" ''
    if ! command -v dpkg-deb > /dev/null; then
        skip 'the package' dpkg-deb
        return
    fi
    dpkg-deb -R "$(make -s deb program="$program")" "$work/package"
    look 'the sums of the package' "$(cd "$work/package" && md5sum --quiet -c DEBIAN/md5sums 2>&1)" ''
    look 'its script of zsh' "$(cmp "$work/package/usr/share/zsh/vendor-completions/_kmipctl" "$place/share/zsh/site-functions/_kmipctl" 2>&1)" ''
    look 'its program' "$("$work/package/usr/bin/kmipctl" --version)" "$("$place/bin/kmipctl" --version)"
}

uninstall_and_look() {
    sed -i '1i share/man/man1/kmipctl-gone.1' "$place/share/doc/kmipctl/INSTALLED"
    touch "$place/share/man/man1/kmipctl-gone.1" "$place/share/man/man1/other.1"
    make -s install program="$program" DESTDIR="$root" > "$work/install-again.out"
    look 'installing again' "$(cat "$work/install-again.out")" "$(cat "$work/install.out")"
    look 'an upgrade takes away what is installed no more' "$(cd "$place/share/man/man1" && ls kmipctl-gone.1 other.1 2> /dev/null)" 'other.1'
    look 'uninstalling' "$(said make -s uninstall DESTDIR="$root")" \
        "$(printf 'uninstalled what was below %s\nstatus 0' "$place")"
    look 'no file is left, but what is of others' "$(cd "$root/usr" && find . -type f)" './local/share/man/man1/other.1'
    look 'no folder of its own is left' "$(find "$root/usr" -name '*kmipctl*')" ''
    look 'what was kept is still there' "$(find "$root/etc" "$root/var" -type f | wc -l)" 6
    look 'uninstalling again' "$(said tools/install.sh uninstall /usr/local "$root")" \
        "install.sh: nothing is installed below $place: there is no $place/share/doc/kmipctl/INSTALLED
status 1"
}

install_and_look
look_at_pages
look_at_units
start_server
timers_day
look_at_packages
uninstall_and_look
echo "$rows rows, $wrong wrong"
[ "$wrong" == 0 ]
