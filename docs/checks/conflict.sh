# proofs above crate conflict against what it promises; see "Conflict's definitions stay open to computing" in docs/DECISIONS.md
conflict() {
    local above allowed file
    above=$(sed -n 's/^\([a-z0-9_]*\):.* conflict\( .*\)\{0,1\}$/\1/p' crates.txt)
    # the page names them in the row "Conflict's definitions stay open to computing"
    allowed=" $(sed -n "/^| Conflict's definitions stay open/p" docs/DECISIONS.md | grep -oE '`[a-z0-9_]+/proofs/[A-Za-z0-9_]+\.antt`' | tr -d '`' | sed 's,^,crates/,' | tr '\n' ' ')"
    for crate in $above; do
        find "crates/$crate" -name '*.antt' -not -path '*/out/*'
        find "crates/$crate/src" -name '*.rt'
    done | while IFS= read -r file; do
        case $allowed in *" $file "*) continue ;; esac
        awk -v file="$file" '
            # names that come from the definitions of conflict, under the names that they have here
            /^use Rattle\.conflict\.specs\.[A-Z]/ {
                line = $0
                if (match(line, /\.\{.*\}/)) {
                    n = split(substr(line, RSTART + 2, RLENGTH - 3), part, ",")
                    for (i = 1; i <= n; i++) { name = part[i]; sub(/^.* as /, "", name); gsub(/[ \t]/, "", name); from[name] = 1 }
                } else if (line ~ / as /) { sub(/^.* as /, "", line); gsub(/[ \t]/, "", line); under[line] = 1 }
            }
            /(^|[ \t(])unfolding / {
                line = $0; sub(/^.*unfolding /, "", line)
                n = split(line, part, /[ \t(),]+/)
                for (i = 1; i <= n; i++) {
                    head = part[i]; sub(/\..*$/, "", head)
                    if (part[i] in from || (part[i] ~ /\./ && head in under) || part[i] ~ /^Rattle\.conflict/) wrong = wrong " " part[i]
                }
            }
            # what an attribute of a function opens
            /^ *#\[tactic\(.*unfolding\(.*conflict::specs::/ { wrong = wrong " conflict::specs in an attribute" }
            END { if (wrong == "") print "ok"; else print file " unfolds what conflict promises by laws alone:" wrong }' "$file"
    done
}
