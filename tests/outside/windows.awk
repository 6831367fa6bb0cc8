# windows.awk   makes card windows of real records:  awk -v folder=DIR -v flank=N -v most=N -f windows.awk RECORDS
#
# A record is a TAB-separated line: the FASTA that it is about, its list, CHROM, POS, REF, ALT, and GT, which is `sites` in a list without sample.
# A list's records stand together, by CHROM and POS. Bases keep the case that they have there. A window has at most as many bases as a
# card takes, and `most` records. Its reference is made of stretches of the real ones, each with `flank` bases on both sides of the
# records of one list, one behind the other; POS is that on this reference, and ID the line's number. DIR/NUMBER gets reference.txt,
# reference.fa and first.vcf, DIR/left-out a line for each record that a card does not take, with why.
BEGIN { FS = OFS = "\t"; BASES_MOST = 65535; ALLELE_MOST = 64 }

# One name for chr1 and 1, and for NC_007795 and gi|88193823|ref|NC_007795.1|.
function contig_of(word) {
    sub(/[ \t].*/, "", word)
    sub(/^gi\|[0-9]*\|ref\|/, "", word)
    sub(/\.[0-9]*\|$/, "", word)
    sub(/^chr/, "", word)
    return word
}

# Reads the contigs of a FASTA, whose lines, but for the last of a contig, are of one length.
function load(path,    command, text, contig) {
    split("", line); split("", lines); split("", width); split("", long)
    command = "zcat -f '" path "'"
    while ((command | getline text) > 0) {
        if (text ~ /^>/) { contig = contig_of(substr(text, 2)); continue }
        if (!(contig in width)) width[contig] = length(text)
        line[contig, lines[contig]++] = text
        long[contig] += length(text)
    }
    close(command)
}

# The bases of a contig from one place, counted from 1, up to and including another: all of them are there.
function bases_of(contig, from, to,    number, skipped, bases) {
    if (to < from) return ""
    number = int((from - 1) / width[contig])
    skipped = number * width[contig]
    while (skipped + length(bases) < to) bases = bases line[contig, number++]
    return substr(bases, from - skipped, to - from + 1)
}

# Why a card does not take the record, or nothing. Sets the stretch around it.
function reason(    count, i, end) {
    if (reference !~ /^[ACGTNacgtn]+$/ || alt !~ /^[ACGTNacgtn,]+$/) return "alleles that are no bases"
    count = split(toupper(alt), alts, ",")
    if (count > 2) return "more than two ALTs"
    if (length(reference) > ALLELE_MOST) return "long alleles"
    for (i = 1; i <= count; i++) if (length(alts[i]) > ALLELE_MOST) return "long alleles"
    if (alts[1] == toupper(reference) || alts[2] == toupper(reference) || alts[1] == alts[2]) return "equal alleles"
    if (genotype == "sites") genotype = count == 1 ? "0/1" : "1/2"
    if (genotype !~ /^[0-2][\/|][0-2]$/ || substr(genotype, 1, 1) > count || substr(genotype, 3) > count) return "no genotype of two digits"
    if (genotype ~ /^0.0$/) return "genotype 0/0"
    end = pos + length(reference) - 1
    if (end > long[contig] || toupper(bases_of(contig, pos, end)) != toupper(reference)) return "another reference"
    start = pos - flank < 1 ? 1 : pos - flank
    to = end + flank > long[contig] ? long[contig] : end + flank
    if (bases_of(contig, start, to) !~ /^[ACGTNacgtn]+$/) return "other letters near by"
    return ""
}

function close_window(    path) {
    if (!records) return
    path = folder "/" sprintf("%04d", ++windows)
    system("mkdir " path)
    print window >(path "/reference.txt")
    print ">chr1\n" window >(path "/reference.fa")
    print "##fileformat=VCFv4.2" >(path "/first.vcf")
    print "##contig=<ID=chr1,length=" length(window) ">" >(path "/first.vcf")
    print "##FORMAT=<ID=GT,Number=1,Type=String,Description=\"Genotype\">" >(path "/first.vcf")
    printf "#CHROM\tPOS\tID\tREF\tALT\tQUAL\tFILTER\tINFO\tFORMAT\tsample\n%s", text >(path "/first.vcf")
    close(path "/reference.txt"); close(path "/reference.fa"); close(path "/first.vcf")
    window = text = stretch = ""
    records = 0
}

$1 != fasta { load($1); fasta = $1 }
{
    contig = contig_of($3); pos = $4; reference = $5; alt = $6; genotype = $7
    why = reason()
    if (why != "") { print $2, why >(folder "/left-out"); next }

    # The last stretch goes on, or another begins, in this window or in a new one.
    goes_on = stretch == $1 SUBSEP $2 SUBSEP contig && start <= end + 1
    from = goes_on ? end + 1 : start
    if (records == most || length(window) + to - from + 1 > BASES_MOST) {
        close_window()
        goes_on = 0
        from = start
    }
    window = window bases_of(contig, from, to)
    if (!goes_on || to > end) end = to
    stretch = $1 SUBSEP $2 SUBSEP contig
    records++
    text = text "chr1\t" (pos - end + length(window)) "\tr" NR "\t" reference "\t" alt "\t.\t.\t.\tGT\t" genotype "\n"
}
END { close_window() }
