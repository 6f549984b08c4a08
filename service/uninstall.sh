#!/bin/sh
# Removes what service/install.sh put there, and leaves the node: its disk, its settings and its user.
#
#     service/uninstall.sh          as root
#     DESTDIR=/some/place service/uninstall.sh  removes the three files below that place, and does nothing else
set -eu
to=${DESTDIR:-}

if [ $# -ne 0 ]; then
    echo "usage: $0, with no words" >&2
    exit 2
fi
if [ -z "$to" ] && [ "$(id -u)" -ne 0 ]; then
    echo "$0 has to be run by root" >&2
    exit 1
fi

if [ -z "$to" ] && [ -d /run/systemd/system ]; then
    systemctl disable --now psb.service || true
fi
rm -f "$to/usr/local/bin/psb" "$to/usr/local/share/man/man1/psb.1" "$to/etc/systemd/system/psb.service"
if [ -n "$to" ]; then
    exit 0
fi
if [ -d /run/systemd/system ]; then
    systemctl daemon-reload
fi
cat <<'END'
Removed. These are left; without the settings and the tickets no folder comes back from the peers:

    rm -r /var/lib/psb
    userdel psb
END
