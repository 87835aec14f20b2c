# docs/BELIEVE.md against docs/believe: the rows of its tables with their counts, and what it says of all other definitions

# the files of definitions that the page counts lines of, by its table file by file
counted() {
    awk -F '`' '/^\| `crates\/[^`]*\/(specs|proofs)` \|/ { for (i = 4; i <= NF; i += 2) print $2 "/" $i ".antt" }' docs/BELIEVE.md
}

believe() {
    local row file
    if ! docs/believe >"$log/believe" 2>"$log/err"; then sed "s,^believe: ,," "$log/err"; return; fi
    # the rows as they are reckoned and as they stand there, each told by all but its count; a row that only one of the two has is wrong
    grep -E '\| [0-9]+ \|$' docs/BELIEVE.md >"$log/page"
    while IFS= read -r row; do
        if grep -qxF -- "$row" "$log/page"; then echo ok; else echo "docs/BELIEVE.md has not the row that docs/believe reckons: $row"; fi
    done <"$log/believe"
    while IFS= read -r row; do
        if grep -qxF -- "$row" "$log/believe"; then echo ok; else echo "docs/BELIEVE.md has a row that docs/believe does not reckon so: $row"; fi
    done <"$log/page"
    counted >"$log/counted"
    # 'all of `FILE`' behind "What need not be believed": no line of it is counted
    sed '1,/^## What need not be believed/d' docs/BELIEVE.md >"$log/rest"
    grep -oE 'all of `[^`]*`' "$log/rest" | tr -d '`' | sed 's/^all of //' | while IFS= read -r file; do
        if [ ! -e "$file" ]; then echo "docs/BELIEVE.md names $file, which is not there"
        elif grep -q "^${file%.antt}[./]" "$log/counted"; then echo "docs/BELIEVE.md says that nothing of $file is to be believed, and counts lines of it"
        else echo ok; fi
    done
    # and every other file of definitions is counted, or told of there
    find crates -path '*/specs/*.antt' -not -path '*/out/*' ! -name Lib.antt | sort | while IFS= read -r file; do
        if grep -qxF "$file" "$log/counted" || grep -qF -e "\`$file\`" -e "\`${file%/*}\`" "$log/rest"; then echo ok; else echo "docs/BELIEVE.md neither counts $file nor tells of it"; fi
    done
}
