#!/bin/sh
# Installs the program, its page, the scripts, man pages, units and documents, and says what it did.
#
#   contrib/install.sh [--prefix FOLDER]              installs below FOLDER, /usr/local if none is given
#   contrib/install.sh [--prefix FOLDER] --back       goes back to the version before, whole; once more, and it goes forward again
#   contrib/install.sh [--prefix FOLDER] --uninstall  stops and disables the units, and removes all versions
#   contrib/install.sh [--prefix FOLDER] --plain      puts the files themselves there, without versions, for contrib/package.sh
#
# Each version has a folder lib/taskboard/versions/VERSION of its own, and the link lib/taskboard/current leads to the one in use. Programs,
# page, man pages and documents are links that lead there; units are copies, since systemd enables no links.
# With DESTDIR set all of it goes below that folder, as for a package. The program is the one that `./taskboard` runs.
# No file of boards is ever touched: if one is in the place of a file to install, nothing is installed and the status is 1.
set -eu
umask 022
contrib=$(dirname "$(readlink -f "$0")")
top=$(dirname "$contrib")
prefix=/usr/local
action=install
units=lib/systemd/system
# Folders that are links as a whole.
folders="share/taskboard share/doc/taskboard"

fail() {
    echo "install.sh: $1" >&2
    exit 1
}

usage() {
    echo "usage: install.sh [--prefix FOLDER] [--back | --uninstall | --plain], with DESTDIR for a package" >&2
    exit 2
}

# What a version has: the mode of each file, its place, and where it comes from.
parts() {
    cat <<PARTS
755 bin/taskboard PROGRAM
644 share/bash-completion/completions/taskboard contrib/completion/taskboard.bash
644 share/bash-completion/completions/tb contrib/completion/taskboard.bash
644 share/doc/taskboard/nginx.conf contrib/nginx/nginx.conf
644 share/doc/taskboard/README.md README.md
644 share/doc/taskboard/CHANGELOG.md CHANGELOG.md
644 share/doc/taskboard/SECURITY.md SECURITY.md
644 share/doc/taskboard/LICENSE LICENSE
PARTS
    for path in "$contrib"/*/* "$contrib"/*/taskboard_*/*.py "$top"/page/* "$top"/page/*/* "$top"/docs/*; do
        [ -f "$path" ] || continue
        name=${path##*/}
        source=${path#"$top"/}
        case $source in
        page/*) echo "644 share/taskboard/$source $source" ;;
        docs/*) echo "644 share/doc/taskboard/docs/$name $source" ;;
        contrib/*/taskboard_*/*.py) echo "644 lib/taskboard/${source#contrib/*/} $source" ;;
        contrib/debian/*) ;;
        contrib/man/*) echo "644 share/man/man1/$name $source" ;;
        contrib/systemd/*) echo "644 $units/$name $source" ;;
        contrib/lib/*) echo "755 lib/taskboard/$name $source" ;;
        contrib/bin/* | contrib/bridges/* | contrib/ship/*) echo "755 bin/$name $source" ;;
        esac
    done
}

is_file_of_boards() {
    [ -f "$1" ] && [ ! -L "$1" ] && [ "$(head -c 15 "$1" | tr -d '\0')" = "SQLite format 3" ]
}

# The places below the prefix in which a version is seen: its files, or the folders that are links as a whole.
places() {
    (cd "$1" && find . -type f | sed 's|^\./||') | while read -r place; do
        case $place in
        share/taskboard/*) echo share/taskboard ;;
        share/doc/taskboard/*) echo share/doc/taskboard ;;
        lib/taskboard/*) ;;
        *) echo "$place" ;;
        esac
    done | LC_ALL=C sort -u
}

# Ends if a file of boards, or a folder that isn't ours, is in a place, before anything is changed.
look_first() {
    parts | while read -r _ place _; do
        [ ! -d "$root/$place" ] || fail "$root/$place is a folder: nothing was changed"
        [ ! -e "$root/$place-wal" ] || fail "$root/$place is a file of boards: nothing was changed"
        if [ -f "$root/$place" ] && [ ! -L "$root/$place" ]; then
            echo "$root/$place"
        fi
    done >"$list"
    for folder in $folders; do
        if is_real_folder "$folder"; then
            [ ! -L "$home/current" ] || [ -d "$versions/before/$folder" ] || fail "$root/$folder is a folder: nothing was changed"
            find "$root/$folder" -type f >>"$list"
        fi
    done
    # (a text that has the words in another line is none)
    { xargs -r -d '\n' grep -la '^SQLite format 3' <"$list" || true; } | while read -r path; do
        ! is_file_of_boards "$path" || fail "$path is a file of boards: nothing was changed"
    done
}

is_real_folder() {
    [ -d "$root/$1" ] && [ ! -L "$root/$1" ]
}

# Puts all files below a folder.
put_parts() {
    program=$("$top/taskboard" --where)
    parts | while read -r mode place source; do
        case $source in
        PROGRAM) install -D -m "$mode" "$program" "$1/$place" ;;
        *) install -D -m "$mode" "$top/$source" "$1/$place" ;;
        esac
    done
}

# Makes the folder of a version, whole or not at all; its name is made of what it holds. Units name the program where it is.
make_version() {
    mkdir -p "$versions"
    new=$(mktemp -d "$versions/.new.XXXXXX")
    chmod 755 "$new"
    put_parts "$new"
    sed -i "s|/usr/local/lib/taskboard/|&current/lib/taskboard/|; s|/usr/local/|$prefix/|g" "$new/$units"/*.service
    version=$(cd "$new" && find . -type f -exec sha256sum {} + | LC_ALL=C sort | sha256sum | cut -c 1-12)
    if [ -d "$versions/$version" ]; then
        rm -r "$new"
    else
        mv "$new" "$versions/$version"
    fi
}

# Keeps what an install.sh without versions left as a version of its own, so that it can be gone back to.
adopt() {
    if [ -L "$home/current" ] || [ ! -f "$root/bin/taskboard" ]; then
        return
    fi
    { parts | cut -d ' ' -f 2 | grep -v "^share/.*taskboard/" && echo "$folders" | tr ' ' '\n'; } | while read -r place; do
        if [ -e "$root/$place" ]; then
            mkdir -p "$(dirname "$versions/before/$place")"
            cp -pRT "$root/$place" "$versions/before/$place"
        fi
    done
    ln -sfn versions/before "$home/current"
}

# Puts a place of the version in use below the prefix; what is there is replaced whole, so that a program that runs goes on with the old one.
put() {
    target=$root/$1
    [ -d "${target%/*}" ] || mkdir -p "${target%/*}"
    case $1 in
    "$units"/*) cp -p "$home/current/$1" "$target.new" ;;
    *)
        # (a folder of an install.sh without versions, which is kept as one)
        if is_real_folder "$1"; then
            rm -r "$target"
        fi
        ln -sfn "$(folders_up "$1")lib/taskboard/current/$1" "$target.new"
        ;;
    esac
    mv -T "$target.new" "$target"
}

# As many `../` as a place has folders.
folders_up() {
    rest=$1
    while [ "${rest#*/}" != "$rest" ]; do
        rest=${rest#*/}
        printf '../'
    done
}

# Removes a place that the version in use lacks.
take_away() {
    if [ ! -e "$home/current/$1" ]; then
        rm -f "$root/$1"
    fi
}

# Has the link lead to a version, and puts or takes away what differs.
use_version() {
    before=$(readlink "$home/current" || true)
    ln -sfn "versions/$1" "$home/current.new"
    mv -T "$home/current.new" "$home/current"
    places "$versions/$1" | while read -r place; do
        put "$place"
        echo "installed $root/$place"
    done
    if [ -n "$before" ] && [ "$before" != "versions/$1" ]; then
        places "$home/$before" | while read -r place; do
            take_away "$place"
        done
        ln -sfn "$before" "$home/previous"
    fi
    echo "the version in use is $versions/$1$(release_of "$versions/$1")"
    tell_units
}

# The number and the date of the release that a version is.
release_of() {
    sed -n 's/^## \([0-9][0-9.]* (.*)\)$/, release \1/p' "$1/share/doc/taskboard/CHANGELOG.md" 2>/dev/null | head -n 1
}

install_plain() {
    put_parts "$root"
    sed -i "s|/usr/local/|$prefix/|g" "$root/$units"/*.service
}

install_all() {
    look_first
    make_version
    adopt
    use_version "$version"
}

go_back() {
    [ -L "$home/previous" ] || fail "there is no version before in $versions: nothing was changed"
    use_version "$(basename "$(readlink "$home/previous")")"
}

# systemd looks for units below /usr/local and /usr alone.
tell_units() {
    case $prefix in
    /usr | /usr/local) echo "now: systemctl daemon-reload" ;;
    *) echo "now, since systemd doesn't look there for units: systemctl link $prefix/$units/taskboard*" ;;
    esac
}

remove() {
    if [ -L "$1" ] || { [ -f "$1" ] && ! is_file_of_boards "$1"; }; then
        rm "$1"
        echo "removed $1"
    fi
}

# Stops and disables the units that are removed, where systemd runs.
stop_units() {
    [ -z "${DESTDIR-}" ] && systemctl list-units >/dev/null 2>&1 || return 0
    { systemctl list-units --all --plain --no-legend 'taskboard*' && systemctl list-unit-files --plain --no-legend --state=enabled 'taskboard*'; } |
        cut -d ' ' -f 1 | grep -v '@\.' | LC_ALL=C sort -u | while read -r unit; do
        case $(systemctl show --value --property=FragmentPath "$unit") in
        "$root/$units"/*) systemctl disable --now "$unit" && echo "stopped and disabled $unit" ;;
        esac
    done
}

remove_all() {
    stop_units
    for version in "$versions"/*; do
        [ -d "$version" ] || continue
        places "$version" | while read -r place; do
            remove "$root/$place"
        done
    done
    # What an install.sh without versions left.
    parts | while read -r _ place _; do
        remove "$root/$place"
    done
    find "$versions" -type f 2>/dev/null | while read -r path; do
        remove "$path"
    done
    rm -f "$home/current" "$home/previous"
    for folder in "$home" "$root/share/taskboard" "$root/share/doc/taskboard"; do
        find "$folder" -depth -type d -exec rmdir {} + 2>/dev/null || true
    done
    [ -n "${DESTDIR-}" ] || systemctl daemon-reload 2>/dev/null || true
}

while [ $# -gt 0 ]; do
    case $1 in
    --prefix)
        [ $# -ge 2 ] || usage
        prefix=${2%/}
        shift
        ;;
    --prefix=*)
        prefix=${1#--prefix=}
        prefix=${prefix%/}
        ;;
    --back) action=back ;;
    --uninstall) action=remove ;;
    --plain) action=plain ;;
    *) usage ;;
    esac
    shift
done
case $prefix in
*[!A-Za-z0-9/._-]*) fail "the prefix may have letters, digits and / . _ - alone" ;;
/*) ;;
*) fail "the prefix has to begin with /" ;;
esac
root=${DESTDIR-}$prefix
home=$root/lib/taskboard
versions=$home/versions
new=
list=$(mktemp)
trap 'rm -rf "$list" ${new:+"$new"}' EXIT

case $action in
install) install_all ;;
back) go_back ;;
remove) remove_all ;;
plain) install_plain ;;
esac
