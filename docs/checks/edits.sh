# The kept edits (crates/*/must-fail) against docs/refused.txt, which has a line for each, against the page that docs/wrong_versions makes of both,
# and against the files that they change.
edits() {
    local f crate names name row
    # the page's first table is what the script prints; it prints none where an edit lacks its line, or a line its edit
    if docs/wrong_versions >"$log/made" 2>"$log/err"; then
        awk '/^\| Crate \| Wrong version \| False under it \|$/ { inside = 1 } inside && !/^\|/ { exit } inside' docs/WRONG_VERSIONS.md >"$log/page"
        while IFS= read -r row; do
            if grep -qxF -e "$row" "$log/page"; then echo ok; else echo "docs/WRONG_VERSIONS.md has not the row that docs/wrong_versions makes: $row"; fi
        done <"$log/made"
        if cmp -s "$log/made" "$log/page"; then echo ok; else echo "docs/WRONG_VERSIONS.md: the table of kept edits is not what docs/wrong_versions prints (docs/wrong_versions -w mends it)"; fi
    else
        cat "$log/err"
    fi
    # what an edit changes stands in its file
    for f in crates/*/must-fail/*.edit; do
        awk -v edit="${f#crates/}" -v crate="${f%%/must-fail/*}" '
            /^file: / { file = crate "/" substr($0, 7); text = ""; while ((getline line <file) > 0) text = text line "\n"; close(file) }
            /^old: / { if (index(text, substr($0, 6))) print "ok"; else print edit ": " file " has nothing of what it changes" }' "$f"
    done
    # statements by their names; needs of functions, as 'f: returns', are not looked for
    sed -n 's/^\([a-z0-9_]*\)\/[a-z0-9_]*: \(.*\)$/\1 \2/p' docs/refused.txt |
        while read -r crate names; do
            for name in $(sed 's/, /\n/g' <<<"$names" | grep -vE ':|^returns|^loop-|requires'); do
                if grep -rqE "^ *(pub )?$name :" "crates/$crate/proofs" "crates/$crate/specs" 2>/dev/null; then echo ok; else echo "docs/refused.txt: crate $crate does not declare $name"; fi
            done
        done
}
