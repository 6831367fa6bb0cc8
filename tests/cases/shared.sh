# shellcheck shell=bash
# What the tests of the scripts share (scripts, building, refusals, install, lot, messages). Each sources it and so stands in the top
# folder, with an empty folder $work that is taken away in the end.
cd "$(dirname "${BASH_SOURCE[0]}")/../.." || exit
export top=$PWD
work=$(mktemp -d)
trap 'rm -rf "$work"' EXIT
ran=0 failed=0

# Where files are younger only because they were checked out, the scripts ask rt once: here, so that no test sees it.
for words in compare "normalise tests/cases/01" "counts tests/cases/01" "lot examples/lot/run1"; do
    # shellcheck disable=SC2086
    ./$words >"$work/printed" 2>"$work/told" || { cat "$work/told" >&2 && exit 1; }
done

# failing WHAT: counts it, and shows what the last command did
failing() {
    failed=$((failed + 1))
    echo "${0##*/}: $1"
    sed 's/^/    printed: /' "$work/printed" | head -n 20
    sed 's/^/    told:    /' "$work/told" | head -n 20
}

# run COMMAND..: leaves what it prints in $work/printed, what it tells in $work/told, and how it ends in `status`
run() {
    status=0
    "$@" >"$work/printed" 2>"$work/told" </dev/null || status=$?
}

# hold WHAT STATUS FILE TOLD COMMAND..: it ends with the status, prints what the file holds, and tells the line TOLD, or nothing
# where TOLD is empty.
hold() {
    local what=$1 wanted=$2 file=$3 told=$4
    shift 4
    ran=$((ran + 1))
    run "$@"
    if [ "$status" -ne "$wanted" ]; then
        failing "$what: status $status, not $wanted"
    elif ! cmp -s "$work/printed" "$file"; then
        failing "$what: it prints something else"
    elif [ -n "$told" ] && ! grep -qxF -- "$told" "$work/told"; then
        failing "$what: it does not tell: $told"
    elif [ -z "$told" ] && [ -s "$work/told" ]; then
        failing "$what: it tells something"
    fi
}

# is WHAT TEST..: the test command holds
is() {
    local what=$1
    shift
    ran=$((ran + 1))
    "$@" || failing "$what"
}

# path_without PROGRAM..: leaves in `no_rt` a PATH on which everything is but these
path_without() {
    local folder folders copy program
    no_rt=
    IFS=: read -r -a folders <<<"$PATH"
    for folder in "${folders[@]}"; do
        for program in "$@"; do
            [ -e "$folder/$program" ] || continue
            copy=$(mktemp -d "$work/path.XXXXXX")
            ln -s "$folder"/* "$copy"
            rm "$copy/$program"
            folder=$copy
        done
        no_rt=$no_rt${no_rt:+:}$folder
    done
}

# ended LEAST: prints the test's line, and fails where something failed or fewer than LEAST were held
ended() {
    echo "${0##*/}: $ran held, $failed failed"
    [ "$failed" -eq 0 ] && [ "$ran" -ge "$1" ]
}
