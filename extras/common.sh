# Part of `same`, `regression` and `hide-list`: their streams, PATH and messages, and the line that shows on a terminal what they are doing.
# shellcheck shell=sh
name=${0##*/} line_end='
'

# A standard stream that is closed is opened, so that no other file takes its number. To read or to write it still fails.
true >&2 || exec 2>/dev/null
{ true <&0; } 2>/dev/null || exec 0>/dev/null
{ true >&1; } 2>/dev/null || exec 1</dev/null

# The comment at the head of the script, with the name by which it is called in the usage.
help=$(sed -n "2,/^[^#]/{ s/^# usage: [a-z-]*/# usage: $name/; s/^#        [a-z-]*/#        $name/; s/^# \{0,1\}//p; }" "$0")
trap end_progress EXIT
trap 'exit 130' INT TERM HUP

PATH=$PATH:$here/../bin
[ ! -x "$here/../crates/cli/out/cli" ] || PATH=$PATH:$here/..

# Writes words to standard error, if that is possible.
complain() { printf '%s\n' "$1" >&2 2>/dev/null || true; }

# Reports that there is no answer, since $2, and ends with status $1.
fail() {
    complain "$name: $2"
    exit "$1"
}

# Writes words to standard output.
say() { printf '%s\n' "$1" 2>/dev/null || fail 5 "standard output: cannot be written"; }

misuse() {
    complain "usage: ${help##*usage: }"
    exit 3
}

no_program="there is no autbis on PATH: ./autbis in a clone builds it, and ./install puts it into ~/.local/bin"

# Shows on standard error, if that is a terminal, a line that is overwritten: after two seconds, what `autbis` reads; then the words $1.
begin_progress() {
    [ -t 2 ] && [ "${TERM:-dumb}" != dumb ] || return 0
    show_progress "$1" 3>&2 2>/dev/null &
    watcher=$!
}

end_progress() {
    [ -n "$watcher" ] || return 0
    kill "$watcher" 2>/dev/null || true
    wait "$watcher" 2>/dev/null || true
    watcher=
}
watcher=

# Writes the line again each second, as long as the script runs, and erases it when it is ended.
show_progress() {
    is_shown='' phase='' begun=$(date +%s) wait=2
    trap '[ -z "$is_shown" ] || printf "\r\033[K" >&3; exit' TERM
    while pause "$wait" && kill -0 "$$"; do
        wait=1 now=$(date +%s) reading=''
        find_reading "$$"
        file=${reading%%"$line_end"*} read=${reading#*"$line_end"}
        [ "$phase" = "${file:-$1}" ] || phase=${file:-$1} since=${since:+$now}
        since=${since:-$begun}
        line="$name: ${reading:+reading }$phase:${reading:+ $read bytes,} $((now - since)) s"
        columns=$(stty size <&3) && columns=${columns#* } || columns=80
        is_shown=yes
        printf '\r\033[K%.*s' "$((columns > 1 ? columns - 1 : 79))" "$line" >&3
    done
}

# Sleeps in a way that a signal ends at once.
pause() {
    sleep "$1" 3>&- >/dev/null &
    wait "$!"
}

# Sets `reading`, if `autbis` runs below the process $1 and has not come to the end of a file: its name, and how much was read.
find_reading() {
    case $(readlink "/proc/$1/exe") in
        */autbis | */cli)
            for file in "/proc/$1/fd"/*; do
                [ -z "$reading" ] && [ -f "$file" ] && read -r _ place <"/proc/$1/fdinfo/${file##*/}" && size=$(wc -c <"$file") || continue
                [ "$place" -ge "$size" ] || reading="$(readlink "$file")$line_end$place of $size"
            done
            ;;
    esac
    for child in $(cat "/proc/$1/task/$1/children"); do
        find_reading "$child"
    done
}

# Whether complaints of `autbis` are held back, so that they do not stand in the line of progress. A launcher, which is a script, may report for
# minutes that it builds.
holds_back() { [ -n "$watcher" ] && [ "$(head -c 2 "$(command -v autbis)")" != '#!' ]; }

# Runs `autbis` with the words after $1, and shows the words $1 meanwhile. Sets `answer` to what it writes, and `status`.
ask() {
    begin_progress "$1"
    shift
    status=0
    if holds_back; then
        answer=$(autbis "$@" 2>&1) || status=$?
        end_progress
        [ "$status" -lt 2 ] || complain "$answer"
    else
        answer=$(autbis "$@") || status=$?
        end_progress
    fi
}
