# shellcheck shell=bash
# What the scripts compare, normalise, counts and lot share: their words, their files, and how a program is started and its answer printed.
# A script stands in the repository's top folder or, installed as card-NAME, in PREFIX/bin; `here` is that folder.
me=${0##*/}
unset CDPATH

# Each message is one line on standard error; the exit status says the rest. What nobody thought of ends with 3, never with 1.
say() { printf '%s: %s\n' "$me" "${*//[[:cntrl:]]/?}" >&2 || true; }
wrong_use() {
    say "$*"
    say "$0 --help says how it is used"
    exit 2
}
fail() {
    say "$*"
    exit 3
}
set -E
trap 'fail "stopped at line $LINENO of ${BASH_SOURCE[0]##*/}"' ERR

work=$(mktemp -d) || fail "there is no room for a temporary folder"
trap 'rm -rf "$work"' EXIT
files=(reference.txt first.vcf second.vcf)

: "${here:?}"
if [ -e "$here/crates.txt" ]; then
    programs=$here/target/bin table=$here/docs/refusals.tsv by_kit=$here/tests/run
    # shellcheck source=programs/build.sh
    source "$here/programs/build.sh"
else
    programs=$here/../libexec/card table=$here/../share/card/refusals.tsv by_kit=$here/../libexec/card/run
    need() { :; }
fi
# shellcheck source=programs/refusal.sh
source "${BASH_SOURCE[0]%/*}/refusal.sh"

# The end of every --help.
help_end() {
    cat <<END

  --name NAME   what CHROM of every record has to be (else chr1)
  --help        prints this
  --            ends the options

A file that cannot be read counts as empty. Where the input is refused,
standard error says what is wrong, in which file and line, and what to do.

Exit status: 0 answered; 1 refused; 2 wrong use; 3 anything else, such as a
program that could not be built or started.

END
    [ ! -e "$here/crates.txt" ] || cat <<END
A program that is not built, or is older than its sources, is proved and built
first. That takes some five minutes and needs the Rattle kit's rt.

END
    cat <<END
The programs are for x86-64 Linux (glibc 2.34 or later). Elsewhere they run
under qemu-x86_64 with an x86-64 C library, which Debian has:
    dpkg --add-architecture amd64 && apt-get update
    apt-get install qemu-user libc6:amd64
END
}

# Prints all of --help, as each script says it in `help`, and ends.
print_help() {
    local text
    text=$(help && help_end)
    printf '%s\n' "$text" || fail "the help could not be written"
    exit 0
}

# read_words WORD..: takes the options. Leaves the other words in `words`, and in `name` the name, where one is given.
read_words() {
    words=() name=()
    while [ $# -gt 0 ]; do
        case $1 in
        --help | -h) print_help ;;
        --name)
            [ $# -gt 1 ] || wrong_use "--name has no name behind it"
            name=("$2")
            shift
            ;;
        --name=*) name=("${1#--name=}") ;;
        --)
            words+=("${@:2}")
            break
            ;;
        -?*) wrong_use "there is no option $1" ;;
        *) words+=("$1") ;;
        esac
        shift
    done
    [ -n "${name[0]-chr1}" ] || wrong_use "--name has an empty name behind it"
}

# take_folder DIR FILE..: leaves the paths of these files of the folder in `paths`.
take_folder() {
    [ ! -f "$1" ] || wrong_use "$1 is a file, not a folder"
    [ -d "$1" ] || wrong_use "no such folder: $1"
    local file
    paths=()
    for file in "${@:2}"; do paths+=("${1%/}/$file"); done
}

# Puts the files of `paths` into the folder $work/files, under the names that the programs read: a plain file as a link, anything else (a
# pipe, say) as a copy, for it can be read only once; the copy ends at 16 MiB, far above what is taken. A file that cannot be read is told,
# and `unread` says so.
lay_files() {
    local i path file why
    rm -rf "$work/files"
    mkdir "$work/files"
    unread=()
    for i in "${!paths[@]}"; do
        path=${paths[i]} file=$work/files/${files[i]} why=
        if [ ! -e "$path" ]; then
            why="there is no such file"
        elif [ -d "$path" ]; then
            why="it is a folder, not a file"
        elif [ ! -r "$path" ]; then
            why="there is no permission to read it"
        elif [ -f "$path" ] && [[ $path != /dev/* && $path != /proc/* ]]; then
            [[ $path = /* ]] || path=$PWD/$path
            ln -s "$path" "$file"
        else
            head -c 16777216 <"$path" >"$file" || why="it cannot be read"
        fi
        [ -z "$why" ] || say "$path: $why; it counts as empty"
        unread[i]=$why
    done
}

# Leaves in `starter` the words that start a program here. On x86-64 it starts by itself, or with the kit's C library; elsewhere by
# qemu-x86_64.
find_starter() {
    local loader=/usr/x86_64-linux-gnu/lib/ld-linux-x86-64.so.2
    [ -z "${starter_found-}" ] || return 0
    starter=() starter_found=1
    if [ "$(uname -m)" = x86_64 ] && [ -e /lib64/ld-linux-x86-64.so.2 ]; then
        return
    elif command -v qemu-x86_64 >/dev/null; then
        starter=(qemu-x86_64)
        [ -e /lib64/ld-linux-x86-64.so.2 ] || [ ! -e "$loader" ] || starter+=("$loader" --library-path "${loader%/*}")
    elif command -v rt >/dev/null; then
        starter=("$by_kit")
    else
        fail "the programs are for x86-64 Linux, and there is no qemu-x86_64 to run them here; $0 --help says how to get it"
    fi
}

# start FOLDER PROGRAM WORD..: runs it in the folder. Leaves what it prints in $work/printed, and in `number`, `list`, `line` and `place`
# those of its refusal, or 0. A program ends with 0 where it wrote all that it prints, a refusal too: another status means that it was not
# started, was stopped, or could not write.
start() {
    local folder=$1 program=$programs/$2 ended word
    shift 2
    [ -x "$program" ] || fail "there is no program $program"
    find_starter
    run_once "$@"
    if [ "$ended" -ne 0 ] && [ ${#starter[@]} -eq 0 ] && command -v rt >/dev/null; then
        starter=("$by_kit") # the machine's C library may be older than the program's
        run_once "$@"
    fi
    [ "$ended" -eq 0 ] || fail "$program ended with status $ended: $(head -n 3 "$work/said")"
    [ "$(tail -c 1 "$work/printed" | od -An -tx1)" = " 0a" ] || fail "$program printed no whole line"
    IFS=$'\t' read -r word number list line place <"$work/printed"
    [ "$word" = refused ] || number=0 list=0 line=0 place=0
}
run_once() {
    ended=0
    (cd "$folder" && exec ${starter[@]+"${starter[@]}"} "$program" "$@") </dev/null >"$work/printed" 2>"$work/said" || ended=$?
}

# Prints what the program printed, byte for byte. Where nobody reads any more (a pipe to head, say) there is nothing to tell.
print_answer() {
    local ended=0
    cat "$work/printed" || ended=$?
    [ "$ended" -ne 141 ] || exit 141
    [ "$ended" -eq 0 ] || fail "what the program printed could not be written"
}

# answer PROGRAM: starts it on the files of `paths`, prints what it prints, and ends with 0 or, where that is a refusal, with 1.
answer() {
    need "$1"
    lay_files
    start "$work/files" "$1" ${name[@]+"${name[@]}"}
    print_answer
    [ "$number" -ne 0 ] || exit 0
    tell_refusal
    exit 1
}
