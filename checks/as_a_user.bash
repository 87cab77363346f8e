# What the scripts share that run the built program as a user would and compare what it gives: to be
# sourced, with `set -u`. Sets top, program, work (an empty folder, which goes at the end), right and
# wrong. The program is the built one that PROTOSCIP names in the environment; without it the one that this repository's
# script runs.
#
# Needs only bash and coreutils; run_as_nobody, run as root, setpriv (util-linux).

top=$(dirname "$(dirname "$(readlink -f "${BASH_SOURCE[0]}")")")
work=$(mktemp -d) || exit 1
trap 'chmod -R u+rwx "$work" && rm -rf "$work"' EXIT
# Under the name that help and command line faults print.
program=$work/bin/protoscip
mkdir "$work/bin" || exit 1
if [ -n "${PROTOSCIP-}" ]; then
    cp "$PROTOSCIP" "$program" || exit 1
else
    "$top/protoscip" --install "$work/bin" || exit 1
fi
right=0 wrong=0
: >"$work/in"

"$program" --version >/dev/null || exit 1

# verdict NAME WANTED FOUND: counts and, where they differ, says so.
verdict() {
    if [ "$2" = "$3" ]; then
        right=$((right + 1))
    else
        wrong=$((wrong + 1))
        printf 'WRONG: %s\n  wanted: %q\n  found:  %q\n' "$1" "${2:0:300}" "${3:0:300}"
    fi
}

# given NAME STATUS LINE: the last run's status is $status, and its standard error this line.
given() {
    verdict "$1, status" "$2" "$status"
    verdict "$1, standard error" "$3" "$(cat "$work/err")"
}

# same NAME STATUS OUT ERR: what the last run gave is this, byte for byte but for final line ends.
same() {
    given "$1" "$2" "$4"
    verdict "$1, standard output" "$3" "$(cat "$work/out")"
}

# begins NAME STATUS OUT ERR: alike, but standard output and error only begin so.
begins() {
    verdict "$1, status" "$2" "$status"
    verdict "$1, standard output" "$3" "$(head -c "${#3}" "$work/out")"
    verdict "$1, standard error" "$4" "$(head -c "${#4}" "$work/err")"
}

# is_empty NAME FILE
is_empty() {
    verdict "$1, bytes of ${2##*/}" 0 "$(stat -c %s "$2")"
}

# run ARGUMENT..: the program on what $work/in holds.
run() {
    "$program" "$@" <"$work/in" >"$work/out" 2>"$work/err"
    status=$?
}

# in_pieces COUNT ARGUMENT..: `run`, to which $work/in comes as its first COUNT bytes and then, once the program
# has taken those, the rest.
in_pieces() {
    local first=$1 talker waits=0
    shift
    mkfifo "$work/pieces"
    # What is written and not yet taken is seen by the end that is opened for both.
    exec 7<>"$work/pieces"
    "$program" "$@" <"$work/pieces" >"$work/out" 2>"$work/err" 7<&- &
    talker=$!
    head -c "$first" "$work/in" >&7
    while read -r -t 0 -u 7 && [ "$waits" -lt 500 ]; do
        waits=$((waits + 1))
        sleep 0.01
    done
    [ "$waits" -lt 500 ] || verdict "$*: a first piece of $first bytes" 'taken' 'not taken in five seconds'
    tail -c "+$((first + 1))" "$work/in" >&7
    exec 7<&-
    wait "$talker"
    status=$?
    rm "$work/pieces"
}

# slowly: copies a byte at a time, so that the pipe before it is full most of the time.
slowly() {
    dd bs=1 status=none
}

# fault NAME STATUS LINE: the last run gave nothing but this line on standard error.
fault() {
    same "$1" "$2" '' "$3"
    is_empty "$1" "$work/out"
    verdict "$1, lines" 1 "$(wc -l <"$work/err")"
}

# refused_words ARGUMENT..: a command line that is refused.
refused_words() {
    run "$@"
    verdict "refused words $*, status" 2 "$status"
    verdict "refused words $*, standard error" 'error: ' "$(head -c 7 "$work/err")"
    is_empty "refused words $*" "$work/out"
}

# shows_help USAGE NAME: `NAME --help`, `NAME -h` and `help NAME` print one text with this usage line.
shows_help() {
    local words
    run "$2" --help
    verdict "$2 --help, status" 0 "$status"
    verdict "$2 --help, its usage" 1 "$(grep -cxF "Usage: protoscip $1" "$work/out")"
    is_empty "$2 --help" "$work/err"
    cp "$work/out" "$work/help"
    for words in "$2 -h" "help $2"; do
        # shellcheck disable=SC2086
        run $words
        same "$words" 0 "$(cat "$work/help")" ''
    done
}

# ended: says how many were right and wrong, and ends.
ended() {
    echo "$right right, $wrong wrong"
    [ "$wrong" = 0 ]
    exit
}

# ---- parts of a tree

# with_known_files: puts descriptor.proto, which need not be installed, where --well-known finds it.
with_known_files() {
    mkdir -p "$work/known/bin" "$work/known/include/google/protobuf"
    ln -sf "$(command -v protoc)" "$work/known/bin/protoc"
    cp "$checks/descriptor.proto" "$work/known/include/google/protobuf/"
    PATH=$work/known/bin:$PATH
}

# each_case COMMAND..: runs it with the options of each case that changes what is indexed (pair_options.py).
each_case() {
    local line words
    while IFS= read -r line; do
        eval "words=($line)"
        "$@" "${words[@]}"
    done < <(python3 "$checks/pair_options.py")
}

# in_parts COUNT ROOT OPTION..: the sources that are listed in $work/all are cut by chance into so many parts, of which
# each is indexed; and their indexes, joined, are $work/whole.
in_parts() {
    local count=$1 root=$2 part said=''
    shift 2
    rm -f "$work"/part.*
    shuf --random-source=<(yes) "$work/all" | awk -v count="$count" -v front="$work/part." '
        { print >(front ((NR * 7919 % 104729) % count) ".list") }'
    for part in "$work"/part.*.list; do
        run index --sources "$part" "$@" "$root" "${part%.list}.index"
        [ "$status" = 0 ] && [ ! -s "$work/err" ] || said="$said$(head -n 1 "$work/err") "
    done
    verdict "$root in $count parts, $*: what they say" '' "$said"
    # shellcheck disable=SC2046
    run join "$work/joined" $(printf '%s\n' "$work"/part.*.index | sort)
    same "$root in $count parts, $*: join" 0 '' ''
    verdict "$root in $count parts, $*" '' "$(cmp "$work/whole" "$work/joined" 2>&1)"
    rm -f "$work"/part.*
}

# parts_of COUNTS ROOT OPTION..: the index of a tree without faults, and those of its parts.
parts_of() {
    local counts=$1 root=$2 count
    shift 2
    run index "$@" "$root" "$work/whole"
    given "$root, $*: one run" 0 ''
    (cd "$root" && find . -type f -name '*.proto' | sed 's/^..//') >"$work/all"
    run index --sources "$work/all" "$@" "$root" "$work/joined"
    same "$root, $*: a list of all" 0 '' ''
    verdict "$root, $*: a list of all, bytes" '' "$(cmp "$work/whole" "$work/joined" 2>&1)"
    for count in $counts; do
        in_parts "$count" "$root" "$@"
    done
}

# parts_if_good COUNTS ROOT OPTION..: `parts_of`, if the tree has no fault with these options.
parts_if_good() {
    run index "${@:3}" "$2" "$work/whole"
    [ "$status" != 0 ] || [ -s "$work/err" ] || parts_of "$@"
}

# ---- trees of sources

# make_tree: sets tree to an empty folder that everybody may read.
make_tree() {
    tree=$work/tree
    chmod 755 "$work"
    mkdir "$tree"
}

# source_at PATH FORMAT ARGUMENT..: makes a source of the tree, which begins with the syntax statement's
# 19 bytes.
source_at() {
    local path=$tree/$1
    shift
    mkdir -p "$(dirname "$path")"
    printf 'syntax = "proto3";\n' >"$path"
    # shellcheck disable=SC2059
    printf "$@" >>"$path"
}

# text_at PATH FORMAT ARGUMENT..: a file of the tree with just this text.
text_at() {
    local path=$tree/$1
    shift
    mkdir -p "$(dirname "$path")"
    # shellcheck disable=SC2059
    printf "$@" >"$path"
}

# no_tree: the tree is empty again.
no_tree() {
    chmod -R u+rwx "$tree" && rm -rf "$tree" && mkdir "$tree"
}

# as_nobody COMMAND..: runs it as a user for whom permissions count, also where root runs the script.
as_nobody() {
    if [ "$(id -u)" = 0 ]; then
        setpriv --reuid=65534 --regid=65534 --clear-groups -- "$@"
    else
        "$@"
    fi
}

# run_as_nobody ARGUMENT..: `run`, as nobody, of a copy of the program, since he may not reach the repository.
run_as_nobody() {
    [ -e "$work/program" ] || cp "$program" "$work/program" || exit 1
    as_nobody "$work/program" "$@" <"$work/in" >"$work/out" 2>"$work/err"
    status=$?
}
