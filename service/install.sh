#!/bin/sh
# Installs the program that was built, its manual page and the unit that serves a node, and makes the user psb.
#
#     service/install.sh            as root
#     DESTDIR=/some/place service/install.sh    puts the three files below that place, and does nothing else
#
# service/uninstall.sh takes it back.
set -eu
cd "$(dirname "$0")/.."
to=${DESTDIR:-}
state=/var/lib/psb

if [ $# -ne 0 ]; then
    echo "usage: $0, with no words" >&2
    exit 2
fi
if [ -z "$to" ] && [ "$(id -u)" -ne 0 ]; then
    echo "$0 has to be run by root" >&2
    exit 1
fi

if [ ! -f crates/psb/out/psb ]; then
    echo "crates/psb/out/psb is not there: build it first, as README.md says" >&2
    exit 1
fi
install -D -m 755 crates/psb/out/psb "$to/usr/local/bin/psb"
install -D -m 644 man/psb.1 "$to/usr/local/share/man/man1/psb.1"
install -D -m 644 service/psb.service "$to/etc/systemd/system/psb.service"
if [ -n "$to" ]; then
    exit 0
fi

if ! id psb >/dev/null 2>&1; then
    useradd --system --user-group --home-dir "$state" --no-create-home --shell /usr/sbin/nologin psb
fi
install -d -m 700 -o psb -g psb "$state"
if [ -d /run/systemd/system ]; then
    systemctl daemon-reload
fi
cat <<'END'
Installed. To begin a node, with its settings in node.toml:

    install -m 600 -o psb -g psb node.toml /var/lib/psb/node.toml
    runuser -u psb -- psb /var/lib/psb/node.img init /var/lib/psb/node.toml
    systemctl enable --now psb

For any other command stop it, and start it again behind:

    systemctl stop psb
    psb /var/lib/psb/node.img backup /home/ann/papers
    systemctl start psb
END
