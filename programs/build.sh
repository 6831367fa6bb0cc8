# shellcheck shell=bash
# Whether a program is built from the sources at hand, and its building. Sourced by shared.sh where that stands in the repository.
#
# A program is put into target/bin once it is proved, built and run, and target/stamp/PROGRAM then has the time at which rt was asked for it.
# So a program is of its sources where its stamp is there and no source is younger. A checkout can make files younger that have not changed:
# then rt, which keeps what it proved, sees in seconds that there is nothing to prove.

: "${here:?}" "${work:?}" "${programs:?}"

# crates_of CRATE..: these crates and those that they stand on, of the repository.
crates_of() {
    awk -v wanted="$*" '
        function visit(crate,    count, k, on) {
            if (!(crate in deps) || seen[crate]++) return
            print crate
            count = split(deps[crate], on, " ")
            for (k = 1; k <= count; k++) visit(on[k])
        }
        { sub(/#.*/, ""); if (split($0, part, ":") == 2) { sub(/ .*/, "", part[1]); deps[part[1]] = part[2] } }
        END { count = split(wanted, crates, " "); for (k = 1; k <= count; k++) visit(crates[k]) }' "$here/crates.txt"
}

# younger_source MARK CRATE: prints a source of the crate, or of one that it stands on, that is younger than the file MARK.
younger_source() {
    local crate folder sources=("$here/crates.txt")
    for crate in $(crates_of "$2"); do
        for folder in "$here/crates/$crate"/{src,specs,proofs}; do
            [ ! -d "$folder" ] || sources+=("$folder")
        done
    done
    find "${sources[@]}" -newer "$1" -print -quit
}

# why_build MARK FILE CRATE: prints why the file has to be built, and nothing where it is built from the sources at hand. Its time is
# that of MARK.
why_build() {
    local younger
    if [ ! -e "$1" ] || [ ! -e "$2" ]; then
        echo "${2#"$here/"} is not built"
    else
        younger=$(younger_source "$1" "$3")
        [ -z "$younger" ] || echo "${2#"$here/"} is older than ${younger#"$here/"}"
    fi
}

# progress COUNT: reads what rt prints, and says which of so many crates are proved. Of a crate that it proved before it says nothing.
progress() {
    local line crate='' proved=0
    while IFS= read -r line; do
        if [[ $line =~ ^crate\ ([a-z0-9_]+): ]]; then
            crate=${BASH_REMATCH[1]}
        elif [[ $line = logic=proved* && -n $crate ]]; then
            proved=$((proved + 1))
            say "crate $proved of $1, $crate: proved"
        fi
    done
}

# by_rt CRATE WORD: runs rt with this word in the crate's folder, which proves it and what it stands on, and says how far it is. One at a time.
by_rt() {
    (cd "$here/crates/$1" && rt "$2" </dev/null) 2>&1 | tee "$work/log" | progress "$(crates_of "$1" | wc -l)" && return
    tail -n 20 "$work/log" >&2
    fail "rt $2 in crates/$1: not proved or not built; the lines above are the last of what it said"
}

# put_built CRATE FILE PLACE: copies what rt built to its place.
put_built() {
    mkdir -p "${3%/*}" && cp --remove-destination "$here/crates/$1/out/$2" "$3" || fail "$3 could not be written"
}

# need_rt WHY: says why something is built, and how long that takes; fails where there is no rt.
need_rt() {
    command -v rt >/dev/null || fail "$1, and there is no rt on the PATH to prove and build it"
    say "$1: proving and building it, some five minutes where nothing is proved yet"
    mkdir -p "$here/target" || fail "there is no permission to build in $here"
    if command -v flock >/dev/null; then
        exec 9>"$here/target/building"
        flock 9
    fi
    touch "$work/began"
}

# need PROGRAM..: proves and builds those that are not built from the sources at hand.
need() {
    local program why
    for program in "$@"; do
        why=$(why_build "$here/target/stamp/$program" "$programs/$program" "$program")
        [ -n "$why" ] || continue
        need_rt "$why"
        by_rt "$program" run
        put_built "$program" "$program" "$programs/$program"
        mkdir -p "$here/target/stamp"
        touch -r "$work/began" "$here/target/stamp/$program"
        exec 9>&-
    done
}

# need_library CRATE: the same for the library that C programs link.
need_library() {
    local library=$here/target/staticlib/lib$1.a why
    why=$(why_build "$library" "$library" "$1")
    [ -n "$why" ] || return 0
    need_rt "$why"
    by_rt "$1" lib
    put_built "$1" "lib$1.a" "$library"
    touch -r "$work/began" "$library"
    exec 9>&-
}
