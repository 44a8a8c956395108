#!/bin/sh
# Makes the Debian package twice, of this clone and of a later one, and installs, upgrades, removes and purges it: files of boards stay. It works
# in a root of its own over this machine's files, or in the folder ROOT, such as one that debootstrap made with python3 and curl.
# It needs root, Debian's dpkg and overlays, and takes some ten seconds once the program is there.
set -eu

. "$(dirname "$0")/../lib/prepare.sh"

needs "the package" dpkg-deb dpkg-query chroot
if [ "$(id -u)" -ne 0 ]; then
    echo "skipped, since it needs root"
    exit 0
fi

# (the mounts end with a second run of this)
if [ -z "${IN_MOUNTS-}" ]; then
    IN_MOUNTS=yes unshare --mount sh "$top/tests/operate/package.sh"
    exit
fi

make_root() {
    mkdir room
    # (nothing below a mount is removed at the end)
    trap 'cd /; umount -l "$folder/room/root" "$folder/room" 2>/dev/null; rm -rf --one-file-system "$folder"' EXIT
    mount -t tmpfs tmpfs room
    mkdir room/upper room/work room/root
    mount -t overlay overlay -o "lowerdir=${ROOT:-/},upperdir=room/upper,workdir=room/work" room/root || {
        echo "skipped, since nothing can be laid over ${ROOT:-/}"
        exit 0
    }
    root=$folder/room/root
}

# Runs a command in the root, where no systemd runs.
inside() {
    chroot "$root" env -i PATH=/usr/sbin:/usr/bin:/sbin:/bin DEBIAN_FRONTEND=noninteractive LC_ALL=C "$@"
}

make_later() {
    mkdir later
    cp -R "$top/contrib" "$top/page" "$top/docs" "$top/dist" "$top/README.md" "$top/CHANGELOG.md" "$top/SECURITY.md" "$top/LICENSE" later
    printf '#!/bin/sh\necho "%s"\n' "$program" >later/taskboard
    chmod 755 later/taskboard
    sed -i '0,/^## /s//## 99.0 (2026-12-02)\n\n## /' later/CHANGELOG.md
    rm later/contrib/bridges/taskwarrior-clean
}

expect_version() {
    found=$(inside dpkg-query --show --showformat='${db:Status-Status} ${Version}' taskboard 2>/dev/null || echo none)
    [ "$found" = "$1" ] || fail "the package is '$found', and not '$1'"
}

installs() {
    inside dpkg -i "/$1" >said 2>&1 || fail "it isn't installed: $(cat said)"
    [ -z "$(inside dpkg --verify taskboard)" ] || fail "files differ: $(inside dpkg --verify taskboard)"
}

boards=/var/lib/taskboard/boards.db

make_root
make_later
first=$(sh "$top/contrib/package.sh" "$root")
second=$(sh later/contrib/package.sh "$root")
sh "$top/contrib/package.sh" "$folder" >/dev/null
cmp -s "$first" "$folder/${first##*/}" || fail "the same clone makes another package"

installs "${first##*/}"
expect_version "installed $(echo "$first" | cut -d _ -f 2)"
inside taskboard --version | grep -q "^taskboard " || fail "the program doesn't run"
inside taskboard-ship --help >/dev/null && inside taskboard-watch --help >/dev/null || fail "a script doesn't run"
[ "$(inside stat -c '%U %a' /var/lib/taskboard /var/backups/taskboard | sort -u)" = "taskboard 700" ] || fail "the folders aren't the server's"
inside sh -c "umask 077; setpriv --reuid=taskboard --regid=taskboard --clear-groups taskboard init $boards ann ann-key-1" || fail "no file is made"
for unit in taskboard.service taskboard@.service taskboard-failed@.service; do
    ! grep -q /usr/local "$root/usr/lib/systemd/system/$unit" || fail "$unit runs programs of /usr/local"
done
sum=$(sha256sum "$root$boards")

installs "${second##*/}"
expect_version "installed 99.0"
[ ! -e "$root/usr/bin/taskwarrior-clean" ] || fail "what the later package lacks stays"

inside dpkg --remove taskboard >said 2>&1 || fail "it isn't removed: $(cat said)"
expect_version "config-files 99.0"
stays=$(find "$root/usr/bin/taskboard" "$root/usr/lib/taskboard" "$root/usr/share/taskboard" 2>/dev/null || true)
[ -z "$stays" ] || fail "this stays: $stays"

installs "${first##*/}"
mkdir -p "$root/etc/taskboard"
echo 'x-key: watch-key-1' >"$root/etc/taskboard/watch.headers"
inside dpkg --purge taskboard >said 2>&1 || fail "it isn't purged: $(cat said)"
[ ! -e "$root/etc/taskboard" ] || fail "settings stay"
grep -q "/var/lib/taskboard stays" said || fail "it doesn't say what stays: $(cat said)"
[ "$(sha256sum "$root$boards")" = "$sum" ] || fail "a file of boards was changed"
echo "installed, upgraded, removed and purged in ${ROOT:-a root of its own}"
