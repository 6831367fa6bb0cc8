# shellcheck shell=bash disable=SC2154
# What is told of a refusal: the words of docs/refusals.tsv, the file and the line, and what stands there. Sourced by shared.sh; `start`
# there leaves `number`, `list`, `line` and `place` of the refusal, and `lay_files` the files.

# words_of NUMBER: leaves in `wrong` and `todo` what the table says of a refusal.
words_of() {
    local row
    while IFS=$'\t' read -r row _ wrong todo; do
        [ "$row" != "$1" ] || return 0
    done <"$table" || true
    wrong="the table of refusals has no such number" todo="see $table"
}

# written_line FILE LINE: the line with a $ behind it, the bytes that do not print written as \t, \r, .. or in octal; nothing where the
# file ends before it.
written_line() { LC_ALL=C sed -n "$2{l 0;q}" "$1"; }

# show_line FILE LINE: its beginning.
show_line() {
    local text
    text=$(written_line "$1" "$2")
    if [ -z "$text" ]; then
        say "  (the text ends before line $2)"
    elif [ "$text" = "\$" ]; then
        say "  (the line is empty)"
    else
        text=${text%\$}
        [[ ! $text =~ ^((\\[0-7]{3}|\\.|[^\\]){60}). ]] || text=${BASH_REMATCH[1]}..
        say "  $text"
    fi
}

# show_allele FILE LINE PLACE: the line with marks below the allele of ALT that begins at this byte, from 0. It ends at the TAB or, where
# it is the first, at a comma; an empty one has one mark, below what stands behind it. 60 bytes are shown: the first where they have the
# whole allele, else those from 20 before it on, or the last.
show_allele() {
    local place=$3 text bytes=() count comma='' end=$3 from=0 before allele behind marks='^'
    text=$(written_line "$1" "$2")
    text=${text%\$}
    while [[ $text =~ ^(\\[0-7]{3}|\\.|.) ]]; do
        bytes+=("${BASH_REMATCH[1]}")
        text=${text:${#BASH_REMATCH[1]}}
    done
    count=${#bytes[@]}
    if ((place < 1 || place >= count)); then # the file has changed since it was judged
        show_line "$1" "$2"
        return
    fi
    [ "${bytes[place - 1]}" != '\t' ] || comma=,
    while ((end < count)) && [[ ${bytes[end]} != '\t' && ${bytes[end]} != "$comma" ]]; do end=$((end + 1)); done
    if ((place >= 60 || place > 20 && end > 60)); then
        from=$((place - 20 < count - 60 ? place - 20 : count - 60))
    fi
    ((end <= from + 60)) || end=$((from + 60))
    printf -v before '%s' "${bytes[@]:from:place-from}"
    printf -v allele '%s' "${bytes[@]:place:end-place}"
    printf -v behind '%s' "${bytes[@]:end:from+60-end}"
    ((from == 0)) || before=..$before
    ((count <= from + 60)) || behind=$behind..
    [ -z "$allele" ] || marks=${allele//?/^}
    say "  $before$allele$behind"
    say "  ${before//?/ }$marks"
}

# show_file FILE: its size, its end, and its first byte that is no base where it is a reference.
show_file() {
    local size bases end="does not end in LF"
    size=$(wc -c <"$1")
    if [ "$size" -eq 0 ]; then
        say "  (it is empty)"
        return
    fi
    [ "$(tail -c 1 "$1" | od -An -tx1)" != " 0a" ] || end="ends in LF"
    say "  (it has $size bytes, and $end)"
    [ "${1##*/}" = reference.txt ] || return 0
    bases=$(LC_ALL=C sed '1s/[^ACGTNacgtn].*//;q' "$1" | tr -d '\n' | wc -c)
    [ "$bases" -lt "$((size - 1))" ] || return 0
    say "  (its byte $((bases + 1)) is no base: $(od -An -c -j "$bases" -N 1 "$1" | sed 's/^ *//; s/^$/a blank/'))"
}

# Says of the refusal that `start` left what is wrong, where, and what to do.
tell_refusal() {
    local file=$work/files/${files[list]} where=${paths[list]}
    [ "$line" -eq 0 ] || where="$where, line $line"
    words_of "$number"
    say "$where: $wrong (refusal $number)"
    [ -z "${unread[list]}" ] || return 0
    if [ "$(head -c 2 "$file" | od -An -tx1)" = " 1f 8b" ]; then
        say "it is compressed: give <(zcat FILE) in its place"
        return 0
    fi
    case $number in
    20 | 21 | 22 | 23) show_allele "$file" "$line" "$place" ;;
    *) if [ "$line" -gt 0 ]; then show_line "$file" "$line"; else show_file "$file"; fi ;;
    esac
    [ "$number" -ne 7 ] || say "  (the name given is ${name[0]-chr1}; --name gives another)"
    say "$todo"
}
