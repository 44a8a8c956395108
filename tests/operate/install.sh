#!/bin/sh
# Installs all of contrib/ into folders: twice, over a file of boards, as a newer version that is taken back whole, over what an earlier
# install.sh left, and removes it again. Then it lets whatever of shellcheck, systemctl, systemd-analyze, groff and bash is there look at
# scripts, units, man pages and completion. It needs no more than a shell, and takes some seconds once the program is there.
set -eu

. "$(dirname "$0")/../lib/prepare.sh"
contrib=$top/contrib
prefix=$folder/opt

# Installs from a clone: this one, or one that the test has made.
install_from() {
    clone=$1
    shift
    sh "$clone/contrib/install.sh" --prefix "$prefix" "$@" >said 2>&1
}

# All that is installed, as whoever runs it finds it: each file with its sum, and no more than the links that lead there.
seen() {
    (cd "$prefix" && find -L . -path ./lib/taskboard -prune -o -type f -exec sha256sum {} + | LC_ALL=C sort -k 2)
}

# A clone of a later version: another program, page, unit and document; a new man page and a new file of the page, and one script less.
make_later_clone() {
    mkdir later
    cp -R "$contrib" "$top/page" "$top/docs" "$top/README.md" "$top/CHANGELOG.md" "$top/SECURITY.md" "$top/LICENSE" later
    printf '#!/bin/sh\necho later\n' >later/program
    printf '#!/bin/sh\necho "%s"\n' "$folder/later/program" >later/taskboard
    chmod 755 later/program later/taskboard
    for changed in page/index.html contrib/systemd/taskboard.service docs/OPERATING.md; do
        echo "# later" >>"later/$changed"
    done
    echo "later" >later/page/later.js
    cp later/contrib/man/taskboard-backup.1 later/contrib/man/taskboard-later.1
    rm later/contrib/bin/taskboard-watch
}

installs_twice() {
    install_from "$top" || fail "it wasn't installed: $(cat said)"
    cmp -s "$prefix/bin/taskboard" "$program" || fail "another program was installed"
    "$prefix/bin/tb" --help | grep -q "^taskboard my " || fail "tb isn't taskboard my"
    ln -s "$prefix/bin/tb" linked
    ./linked --help | grep -q "^taskboard my " || fail "a link to tb doesn't find the program"
    cmp -s "$prefix/share/taskboard/page/index.html" "$top/page/index.html" || fail "another page was installed"
    grep -q "systemctl link $prefix/lib/systemd/system/taskboard\*" said || fail "it doesn't say how systemd finds the units: $(cat said)"
    grep -q "^ExecStart=/usr/bin/env .* $prefix/bin/taskboard serve .* --page $prefix/share/taskboard/page " "$prefix/lib/systemd/system/taskboard.service" ||
        fail "the unit runs another program"
    grep -q "^ExecStart=$prefix/lib/taskboard/current/lib/taskboard/report-failure %i" "$prefix/lib/systemd/system/taskboard-failed@.service" &&
        [ -x "$prefix/lib/taskboard/current/lib/taskboard/report-failure" ] || fail "the unit that reports runs another program"
    release=$(sed -n 's/^## \([0-9][0-9.]* (.*)\)$/\1/p' "$top/CHANGELOG.md" | head -n 1)
    grep -qF ">Release $release<" "$prefix/share/taskboard/page/index.html" || fail "the page names another release than $release"
    grep -q ", release $release$" said || fail "it doesn't say which release it is: $(cat said)"
    seen >first
    install_from "$top" || fail "it wasn't installed again: $(cat said)"
    seen | cmp -s - first || fail "installed again it is another"
    [ "$(find "$prefix/lib/taskboard/versions" -mindepth 1 -maxdepth 1 | wc -l)" -eq 1 ] || fail "one version has two folders"
    ! install_from "$top" --back || fail "it went back from the only version"
    seen | cmp -s - first || fail "going back from the only version changed something"
}

spares_boards() {
    "$program" init kept.db ann ann-key-1
    for place in bin/taskboard-backup lib/systemd/system/taskboard.service; do
        mv "$prefix/$place" aside
        cp kept.db "$prefix/$place"
        ! install_from "$top" || fail "a file of boards was overwritten"
        cmp -s kept.db "$prefix/$place" || fail "a file of boards was changed"
        mv aside "$prefix/$place"
    done
}

goes_back_whole() {
    make_later_clone
    install_from later || fail "the later version wasn't installed: $(cat said)"
    seen >second
    for place in bin/taskboard share/taskboard/page/index.html lib/systemd/system/taskboard.service share/doc/taskboard/docs/OPERATING.md; do
        [ "$(grep "/$place$" first)" != "$(grep "/$place$" second)" ] || fail "$place is the earlier one"
    done
    [ -f "$prefix/share/man/man1/taskboard-later.1" ] || fail "the new man page lacks"
    [ ! -e "$prefix/bin/taskboard-watch" ] && [ ! -L "$prefix/bin/taskboard-watch" ] || fail "the script that is no more is there"
    install_from later --back || fail "it didn't go back: $(cat said)"
    seen | cmp -s - first || fail "it didn't go back whole: $(seen | diff first -)"
    [ ! -L "$prefix/share/man/man1/taskboard-later.1" ] || fail "a link to nothing was left"
    install_from "$top" --back || fail "it didn't go forward again: $(cat said)"
    seen | cmp -s - second || fail "it didn't go forward whole"
}

# What an install.sh without versions left: plain files and folders, with a file of the page that is no more.
adopts() {
    rm -r "$prefix"
    for place in bin/taskboard bin/taskboard-backup share/man/man1/taskboard.1 lib/systemd/system/taskboard.service share/taskboard/page/index.html \
        share/taskboard/page/no-more.js share/doc/taskboard/README.md; do
        mkdir -p "$prefix/$(dirname "$place")"
        echo "earlier $place" >"$prefix/$place"
    done
    cp kept.db "$prefix/share/taskboard/boards"
    ! install_from "$top" || fail "a folder with a file of boards was replaced"
    cmp -s kept.db "$prefix/share/taskboard/boards" || fail "a file of boards in a folder was changed"
    rm "$prefix/share/taskboard/boards"
    seen >earlier
    install_from "$top" || fail "it wasn't installed over an earlier one: $(cat said)"
    seen | cmp -s - first || fail "over an earlier one it is another: $(seen | diff first -)"
    install_from "$top" --back || fail "it didn't go back to the earlier one: $(cat said)"
    seen | cmp -s - earlier || fail "the earlier one isn't whole: $(seen | diff earlier -)"
}

# Both versions, of which the earlier one is in use.
removes() {
    echo "of another" >"$prefix/bin/another"
    mkdir programs
    cat >programs/systemctl <<SYSTEMCTL
#!/bin/sh
case \$1 in
list-units) echo "taskboard.service loaded active running Boards"; echo "taskboard@north.service loaded active running North"; echo "taskboard-other.service loaded active running Other" ;;
list-unit-files) echo "taskboard@.service enabled enabled"; echo "taskboard-backup.timer enabled enabled" ;;
show) case \$4 in taskboard-other*) echo /etc/systemd/system/taskboard-other.service ;; *) echo "$prefix/lib/systemd/system/any" ;; esac ;;
disable) echo "\$*" >>"$folder/disabled" ;;
esac
SYSTEMCTL
    chmod 755 programs/systemctl
    PATH=$folder/programs:$PATH install_from "$top" --uninstall || fail "it wasn't removed: $(cat said)"
    [ "$(sort disabled | tr '\n' ';')" = "disable --now taskboard-backup.timer;disable --now taskboard.service;disable --now taskboard@north.service;" ] ||
        fail "it didn't stop and disable what it removed: $(cat disabled)"
    [ "$(find "$prefix" ! -type d)" = "$prefix/bin/another" ] || fail "this stayed: $(find "$prefix" ! -type d)"
    [ ! -e "$prefix/lib/taskboard" ] && [ ! -e "$prefix/share/taskboard" ] || fail "folders stayed"
}

# systemd finds the units of /usr/local by itself, and those of another folder where they are linked as it is told.
systemd_finds_units() {
    root=$folder/root
    DESTDIR=$root sh "$contrib/install.sh" >said 2>&1 || fail "it wasn't installed for a package: $(cat said)"
    DESTDIR=$root sh "$contrib/install.sh" --prefix /opt/boards >said 2>&1 || fail "it wasn't installed elsewhere: $(cat said)"
    for unit in taskboard.service taskboard-backup.timer taskboard-watch.timer taskboard@office.service; do
        systemctl --root="$root" enable "$unit" 2>said || fail "$unit isn't enabled: $(cat said)"
    done
    rm -r "$root/usr/local" "$root/etc"
    systemctl --root="$root" link /opt/boards/lib/systemd/system/taskboard.service 2>said || fail "a unit isn't linked: $(cat said)"
    systemctl --root="$root" enable taskboard.service 2>said || fail "a linked unit isn't enabled: $(cat said)"
}

# A template is looked at by an instance of it.
units_are_right() {
    units=$prefix/lib/systemd/system
    instances="taskboard@office.service taskboard-failed@taskboard.service.service taskboard-again@taskboard.service.service"
    instances="$instances taskboard-ship@office.service taskboard-watch@office.service taskboard-watch@office.timer"
    for instance in $instances; do
        cp "$units/${instance%%@*}@.${instance##*.}" "$units/$instance"
    done
    find "$units" -name 'taskboard*' ! -name '*@.*' -exec env MANPATH="$prefix/share/man:" systemd-analyze verify {} + 2>said || fail "the units: $(cat said)"
    [ ! -s said ] || fail "the units: $(cat said)"
    for instance in $instances; do
        rm "$units/$instance"
    done
}

# The man page has each fault and each refusal by its name.
man_page_has_names() {
    names=$(sed -n 's/^ *Fault::.* => "\(.*\)",$/\1/p' "$top/crates/tb_program/src/fault.rt"
        sed -n 's/^| [0-9]* \([A-Z][A-Za-z]*\) |.*/\1/p' "$top/docs/HTTP.md")
    for name in $names; do
        grep -qw "$name" "$contrib/man/taskboard.1" || fail "the man page lacks $name"
    done
    [ "$(echo "$names" | wc -l)" -gt 20 ] || fail "the names of faults and refusals weren't found"
}

# What bash offers in the place of the last word.
offered() {
    bash -c '
        source "$1"
        shift
        COMP_WORDS=("$@") COMP_CWORD=$(($# - 1))
        _taskboard taskboard "${COMP_WORDS[COMP_CWORD]}" "${COMP_WORDS[COMP_CWORD - 1]}"
        echo "${COMPREPLY[*]}"' bash "$contrib/completion/taskboard.bash" "$@" 2>/dev/null
}

expect_offered() {
    wanted=$1
    shift
    got=$(offered "$@")
    [ "$got" = "$wanted" ] || fail "after '$*' bash offered '$got'"
}

bash_offers() {
    expect_offered "import" taskboard im
    expect_offered "kept.db kept.db-wal" taskboard list kept
    expect_offered "done delete" taskboard my d
    expect_offered "done delete" taskboard my --board 1 --for 5 d
    expect_offered "" taskboard my --board ""
    expect_offered "--board --for --help" taskboard my -
    expect_offered "status:" taskboard my list sta
    expect_offered "urgency due project" taskboard my --board 1 next --sort ""
    expect_offered "pri: project:" taskboard my add p
    expect_offered "--json --help" taskboard my show --
    expect_offered "--help" taskboard my done --
    expect_offered "kept.db kept.db-wal" taskboard serve --port 8080 kept
    expect_offered "--port --connections --forever --page --log --growth --burst" taskboard serve kept.db ""
    expect_offered "--forever" taskboard serve kept.db --port 8080 --f
    expect_offered "kept.db kept.db-wal" taskboard serve kept.db --port 8080 --page kept
    expect_offered "json todo" taskboard import kept.db ann ann-key-1 00000000-0000-4000-8000-000000000001 1 ""
}

installs_twice
if is_there systemd-analyze && is_there man; then
    units_are_right
fi
spares_boards
goes_back_whole
adopts
removes
if is_there systemctl; then
    systemd_finds_units
fi
if is_there shellcheck; then
    for script in "$contrib"/*.sh "$contrib"/*/*; do
        [ -f "$script" ] || continue
        case $(head -n 1 "$script") in
        '#!/bin/sh') shellcheck "$script" ;;
        esac
    done
    shellcheck "$contrib/completion/taskboard.bash"
fi
if is_there pyflakes3; then
    for script in "$contrib"/*/*; do
        [ -f "$script" ] || continue
        case $(head -n 1 "$script") in
        '#!/usr/bin/env python3') pyflakes3 "$script" ;;
        esac
    done
    pyflakes3 "$contrib"/*/taskboard_*/*.py
fi
if is_there groff; then
    groff -man -Tutf8 -ww "$contrib"/man/*.1 >page 2>warnings
    [ ! -s warnings ] || fail "the man pages: $(cat warnings)"
fi
man_page_has_names
if is_there bash; then
    bash_offers
fi
echo "installed, gone back whole, and removed"
