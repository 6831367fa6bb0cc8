# clusters.awk   says of each cluster that compare prints what its two lists' donors are:
# awk -f clusters.awk reference.txt first.vcf second.vcf PRINTED
#
# Prints for each cluster whether it is `undecided`; else whether two entries of one list `overlap` on a copy on which neither has REF, as
# they are written; else whether all entries of list 1 and all of list 2 give the `same` donors, or the same with the copies of list 2
# exchanged, or whether they `differ`; then how many entries it has, how many are marked 0, whether one has two ALTs, whether the spans of
# two of one list overlap on any copies, whether the lists write it otherwise, and how each does. All bases are taken in upper case.
BEGIN { FS = OFS = "\t" }
FNR == 1 { file++ }
file == 1 { bases = toupper($0); next }
file < 4 && /^#/ { next }
file < 4 {
    $4 = toupper($4); $5 = toupper($5)
    number = ++records[file - 1]
    pos[file - 1, number] = $2; reference[file - 1, number] = $4
    split($4 "," $5, alleles, ",")
    for (copy = 0; copy < 2; copy++) {
        digit = substr($10, 1 + 2 * copy, 1)
        # An entry that has REF on a copy is none there.
        if (digit > 0) allele[file - 1, number, copy] = alleles[digit + 1]
    }
    fields[file - 1, number] = $2 " " $4 " " $5; two[file - 1, number] = $5 ~ /,/
    next
}
$1 == "refused" { wrong = "compare refuses: " $0; exit }
$1 == "list" || $1 == "total" { next }
# Merged order keeps the order of each list.
$2 != pos[$1, ++seen[$1]] { wrong = "compare prints another POS: " $0; exit }
$3 != cluster { tell(); cluster = $3 }
{ list[++entries] = $1; entry[entries] = seen[$1]; unmatched += $4 == "0"; undecided = $4 == "?" }
END {
    if (wrong != "") { print wrong >"/dev/stderr"; exit 1 }
    tell()
    exit seen[1] != records[1] || seen[2] != records[2]
}

# The bases of the cluster's stretch on a copy, with all entries of a list that have an ALT there. They do not overlap, and stand by POS.
function donor(of, copy,    made, at, i, e) {
    at = from
    for (i = 1; i <= entries; i++) {
        e = entry[i]
        if (list[i] != of || !((of, e, copy) in allele)) continue
        made = made substr(bases, at, pos[of, e] - at) allele[of, e, copy]
        at = pos[of, e] + length(reference[of, e])
    }
    return made substr(bases, at, to - at)
}

# The cluster that ends here: from its first POS up to, not including, the largest end.
function tell(    i, e, l, copy, end, ends, reach, overlap, spans, kind, doubles, written) {
    if (!entries) return
    from = pos[list[1], entry[1]]
    for (i = 1; i <= entries; i++) {
        l = list[i]; e = entry[i]
        end = pos[l, e] + length(reference[l, e])
        if (end > to) to = end
        spans = spans || pos[l, e] < reach[l]
        if (end > reach[l]) reach[l] = end
        for (copy = 0; copy < 2; copy++) {
            if (!((l, e, copy) in allele)) continue
            overlap = overlap || pos[l, e] < ends[l, copy]
            ends[l, copy] = end
        }
        doubles = doubles || two[l, e]
        written[l] = written[l] "; " fields[l, e]
    }
    if (undecided) kind = "undecided"
    else if (overlap) kind = "overlap"
    else if (donor(1, 0) == donor(2, 0) && donor(1, 1) == donor(2, 1)) kind = "same"
    else if (donor(1, 0) == donor(2, 1) && donor(1, 1) == donor(2, 0)) kind = "same"
    else kind = "differ"
    print kind, entries, unmatched, !!doubles, !!spans, written[1] != written[2], substr(written[1], 3) " against " substr(written[2], 3)
    entries = unmatched = undecided = to = 0
}
