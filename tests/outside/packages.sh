# Debian's packages as files: nothing is installed, and the machine's own lists of packages stay as they are. `fetch NAME..` lays the files of each
# package into $packages/NAME, and those of a source package into $packages/source/NAME. What is there is not fetched again.
packages=$(dirname "$(mktemp -u)")/card-packages.$(id -u)

# apt_get WORD..: apt-get with the machine's sources, those of source packages too, and lists of its own
apt_get() {
    timeout 300 apt-get -o Acquire::http::Timeout=20 -o Dir::Etc::sourcelist=/dev/null -o Dir::Etc::sourceparts="$packages/apt/parts" \
        -o Dir::State::lists="$packages/apt/lists" -o Dir::Cache="$packages/apt/cache" "$@"
}

# update: brings those lists up to date, once in a run
updated=
update() {
    local part
    [ -z "$updated" ] || return 1
    updated=1
    mkdir -p "$packages"/apt/{parts,lists/partial,cache/archives/partial}
    for part in /etc/apt/sources.list /etc/apt/sources.list.d/*.list /etc/apt/sources.list.d/*.sources; do
        [ ! -s "$part" ] || sed 's/^deb \(.*\)/&\ndeb-src \1/; s/^Types:.*/Types: deb deb-src/' "$part" >"$packages/apt/parts/${part##*/}"
    done
    apt_get update
}

# get NAME: fetches a package and lays out its files
get() {
    local new=$packages/new.$$ got=0
    mkdir -p "$new/files" "$(dirname "$packages/$1")"
    case $1 in
    source/*) (cd "$new" && apt_get source --download-only "${1#source/}" && tar -xf ./*.orig.tar.?z -C files) ;;
    *) (cd "$new" && apt_get download "$1" && dpkg -x ./*.deb files) ;;
    esac && mv -T "$new/files" "$packages/$1" || got=1
    rm -rf "$new"
    return $got
}

fetch() {
    local name
    mkdir -p "$packages"
    for name in "$@"; do
        [ -d "$packages/$name" ] || get "$name" || { update && get "$name"; } || return
    done >"$packages/log" 2>&1
}
