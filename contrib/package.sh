#!/bin/sh
# Makes the Debian package taskboard_RELEASE_amd64.deb of this clone in a folder, and prints its path. It needs dpkg-deb.
#
#   contrib/package.sh [FOLDER]     here, if none is given
#
# The program is the one that `./taskboard` runs. The package's maintainer is $DEBFULLNAME <$DEBEMAIL>, as for Debian's own tools.
set -eu
umask 022
contrib=$(dirname "$(readlink -f "$0")")
top=$(dirname "$contrib")
folder=${1:-.}
maintainer="${DEBFULLNAME:-$(id -un)} <${DEBEMAIL:-$(id -un)@$(hostname)}>"

# The number and the date of the newest release.
release=$(sed -n 's/^## \([0-9][0-9.]*\) (\([0-9-]*\))$/\1/p' "$top/CHANGELOG.md" | head -n 1)
date=$(sed -n 's/^## \([0-9][0-9.]*\) (\([0-9-]*\))$/\2/p' "$top/CHANGELOG.md" | head -n 1)
# The same clone makes the same bytes.
SOURCE_DATE_EPOCH=$(date -u -d "$date" +%s)
export SOURCE_DATE_EPOCH

control() {
    cat <<CONTROL
Package: taskboard
Version: $release
Architecture: amd64
Maintainer: $maintainer
Installed-Size: $(du -sk --apparent-size "$room" | cut -f 1)
Depends: libc6 (>= $(sed -n 's/^glibc //p' "$top/dist/manifest")), python3 (>= 3.9), curl, passwd
Recommends: nginx, libnginx-mod-http-lua, openssl
Suggests: openssh-client, mailutils
Section: web
Priority: optional
Description: task boards that a team shares
 A server, a web page and a command line for task boards, kept in one SQLite
 file. Tasks come from and go to Taskwarrior and todo.txt. Every change
 happens once, and what was answered is stored.
CONTROL
}

# Texts as Debian's policy has them: man pages and changes compressed, the license under its name.
lay_out() {
    documents=$room/usr/share/doc/taskboard
    mv "$documents/LICENSE" "$documents/copyright"
    gzip -9n "$room"/usr/share/man/man1/*
    gzip -9nc "$documents/CHANGELOG.md" >"$documents/changelog.gz"
    mkdir "$room/DEBIAN"
    control >"$room/DEBIAN/control"
    for script in postinst prerm postrm; do
        install -m 755 "$contrib/debian/$script" "$room/DEBIAN/$script"
    done
    (cd "$room" && find usr -type f -exec md5sum {} + | LC_ALL=C sort -k 2) >"$room/DEBIAN/md5sums"
}

room=$(mktemp -d)
trap 'rm -rf "$room"' EXIT
chmod 755 "$room"
DESTDIR=$room sh "$contrib/install.sh" --prefix /usr --plain >/dev/null
lay_out
dpkg-deb --root-owner-group -Zgzip --build "$room" "$folder/taskboard_${release}_amd64.deb" >/dev/null
echo "$folder/taskboard_${release}_amd64.deb"
