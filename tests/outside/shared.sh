# What the tests beside this file share. Each sources it and so stands in the top folder, with bcftools, the programs that draw lists, and an
# empty folder $work that is taken away in the end.
cd "$(dirname "${BASH_SOURCE[0]}")/../.."

# Debian's bcftools is installed where that can be done; without it the test is skipped and says so.
if ! command -v bcftools >/dev/null && ! { [ "$(id -u)" = 0 ] && apt-get install -y bcftools; } >/dev/null 2>&1; then
    echo "outside: $(basename "$0") is skipped, there is no bcftools"
    exit 0
fi
work=$(mktemp -d)
trap 'rm -rf "$work"' EXIT
(cd tests/second && cargo build --offline --release --quiet)

# run_in FOLDER PROGRAM: what a program of the card prints there
run_in() { (cd "$1" && "$OLDPWD/tests/run" "$OLDPWD/target/bin/$2"); }

# norm FOLDER LIST: the list as `bcftools norm -f` writes it
norm() { bcftools norm -f "$1/reference.fa" "$1/$2.vcf" 2>"$1/$2.log" || { cat "$1/$2.log" >&2 && return 1; }; }

# lay_pair SEED FOLDER [masked]: draws two lists, soft-masked or in upper case, and writes to FOLDER/entries what compare says of each
# entry, in merged order: cluster, list, mark, ID, POS, REF, ALT and genotype, TAB-separated.
lay_pair() {
    mkdir "$2"
    tests/second/target/release/outside_pair "$@"
    run_in "$2" compare >"$2/printed"
    awk -F '\t' -v OFS='\t' '
        FNR == 1 { file++ }
        file <= 2 && /^#/ { next }
        file <= 2 { number = ++records[file]; pos[file, number] = $2; record[file, number] = $3 OFS $2 OFS $4 OFS $5 OFS $10; next }
        $1 == "list" || $1 == "total" { next }
        # Merged order keeps the order of each list.
        { number = ++seen[$1] }
        $2 != pos[$1, number] { print "outside: compare prints another POS: " $0 >"/dev/stderr"; wrong = 1 }
        { print $3, $1, $4, record[$1, number] }
        END { exit wrong || seen[1] != records[1] || seen[2] != records[2] }' "$2/first.vcf" "$2/second.vcf" "$2/printed" >"$2/entries"
}
