# Completion of taskboard's orders, options and files for bash: read by bash-completion, or by `source contrib/completion/taskboard.bash`.

# Names of files and folders that begin with the word.
_taskboard_files() {
    compopt -o filenames 2>/dev/null
    mapfile -t COMPREPLY < <(compgen -f -- "$1")
}

_taskboard_words() {
    mapfile -t COMPREPLY < <(compgen -W "$1" -- "$2")
}

# The place of a word among those that are no option: 1 is the order, 2 its file.
_taskboard_place() {
    local at place=0
    for ((at = 1; at <= COMP_CWORD; at++)); do
        case ${COMP_WORDS[at - 1]} in
        --port | --connections | --page | --growth | --burst) continue ;;
        esac
        case ${COMP_WORDS[at]} in
        --port | --connections | --forever | --page | --log | --growth | --burst) ;;
        *) place=$((place + 1)) ;;
        esac
    done
    echo "$place"
}

_taskboard_of_serve() {
    case ${COMP_WORDS[COMP_CWORD - 1]} in
    --port | --connections | --growth | --burst)
        COMPREPLY=()
        return
        ;;
    --page)
        _taskboard_files "$2"
        return
        ;;
    esac
    case $2 in
    -*) _taskboard_words "--port --connections --forever --page --log --growth --burst" "$2" ;;
    *)
        if [ "$(_taskboard_place)" -eq 2 ]; then
            _taskboard_files "$2"
        else
            _taskboard_words "--port --connections --forever --page --log --growth --burst" "$2"
        fi
        ;;
    esac
}

# The words of a script, behind the options, the server, the member and the key.
_taskboard_of_send() {
    case ${COMP_WORDS[COMP_CWORD - 1]} in
    --id | --for) return ;;
    esac
    case $2 in
    -*) _taskboard_words "--id --for" "$2" ;;
    *) _taskboard_words "list export todo task people history history-of me add done delete reopen start stop modify annotate denotate depend undepend sweep import import-todo person board role ahead title take key own-key" "$2" ;;
    esac
}

# The first word of `my`, or of `tb`.
_taskboard_of_my() {
    _taskboard_words "list next projects tags boards people show log add change append prepend copy done delete reopen start stop note unnote needs free undo use import export todo setup help" "$1"
}

_taskboard_of_tb() {
    local words
    _taskboard_of_my "$1"
    words=("${COMPREPLY[@]}")
    _taskboard_words send "$1"
    COMPREPLY+=("${words[@]}")
}

# What stands behind the first word of `my`.
_taskboard_behind_my() {
    case $1 in
    list | ls | next | projects | tags) _taskboard_words "mine overdue blocked waiting recurring done all due:today due:week due:before: due:after: done:week for: pri: project: status: not: --sort --json --help" "$2" ;;
    add | change | modify | append | prepend | copy) _taskboard_words "due: wait: scheduled: until: pri: project: tags: for: rec: depends: --help" "$2" ;;
    boards | people | show | log) _taskboard_words "--json --help" "$2" ;;
    --sort) _taskboard_words "urgency due project" "$2" ;;
    help) _taskboard_of_my "$2" ;;
    import)
        if [ "${2#-}" != "$2" ]; then
            _taskboard_words "--check --clean --skip --help" "$2"
        else
            _taskboard_files "$2"
        fi
        ;;
    *) _taskboard_words "--help" "$2" ;;
    esac
}

# The words of `my` or of `tb`, the first of which is at the place $1, behind --board B and --for SECONDS.
_taskboard_from() {
    local at=$1 word=$3
    while [ "$at" -lt "$COMP_CWORD" ]; do
        case ${COMP_WORDS[at]} in
        --board | --for) at=$((at + 2)) ;;
        *) break ;;
        esac
    done
    if [ "$at" -gt "$COMP_CWORD" ]; then
        return
    elif [ "$at" -lt "$COMP_CWORD" ] && [ "${COMP_WORDS[COMP_CWORD - 1]}" = --sort ]; then
        _taskboard_behind_my --sort "$word"
    elif [ "$at" -lt "$COMP_CWORD" ]; then
        _taskboard_behind_my "${COMP_WORDS[at]}" "$word"
    elif [ "${word#-}" != "$word" ]; then
        _taskboard_words "--board --for --help" "$word"
    else
        "$2" "$word"
    fi
}

_tb() {
    COMPREPLY=()
    if [ "${COMP_WORDS[1]}" = send ] && [ "$COMP_CWORD" -gt 1 ]; then
        _taskboard_of_send "$@"
    else
        _taskboard_from 1 _taskboard_of_tb "$2"
    fi
}

_taskboard() {
    local order=${COMP_WORDS[1]}
    COMPREPLY=()
    if [ "$COMP_CWORD" -eq 1 ]; then
        _taskboard_words "init serve send my run import list export todo check key --help --version" "$2"
        return
    fi
    case $order:$COMP_CWORD in
    serve:*) _taskboard_of_serve "$@" ;;
    send:*) _taskboard_of_send "$@" ;;
    my:*) _taskboard_from 2 _taskboard_of_my "$2" ;;
    init:2 | import:2 | list:2 | export:2 | todo:2 | check:2 | key:2) _taskboard_files "$2" ;;
    import:7) _taskboard_words "json todo" "$2" ;;
    import:8) _taskboard_words "--all --check --clean --skip" "$2" ;;
    import:9) _taskboard_words "--check --clean --skip" "$2" ;;
    esac
}

complete -F _taskboard taskboard
complete -F _tb tb
