# FILE and NAME to a line, parted by a tab: whether the file declares the name, as a theorem, definition, type, field or function
declared() {
    awk -F '\t' '
        !($1 in read) {
            read[$1] = 1
            while ((got = (getline line < $1)) > 0) {
                there[$1] = 1
                sub(/^[ \t]+/, "", line)
                while (match(line, /^(pub|unfoldable|abbrev|data|record|const|fn|struct|enum|trait|type|extern "C") +/)) line = substr(line, RLENGTH + 1)
                if (match(line, /^[^ \t(:{=;,<]+/)) {
                    name = substr(line, 1, RLENGTH)
                    rest = substr(line, RLENGTH + 1)
                    if (rest ~ /^[ \t]*[:({=,;<]/ || rest == "") has[$1, name] = 1
                }
            }
            close($1)
        }
        !($1 in there) { print $1 " is not there (" $2 ")"; next }
        !(($1, $2) in has) { print $1 " does not declare " $2; next }
        { print "ok" }'
}

# in docs/PROMISES.md, docs/promises/ and docs/BELIEVE.md, rows with a file in one cell and names in the next; in docs/LINKING.md, rows with a function in one
# cell and its module in the next; and on every page names in front of their file, as in: `a`, `b` (`crates/x/src/y.rt`), `a` of .., `a` in ..
promises() {
    awk '
        function names(text, file,   n, i, part) {
            n = split(text, part, "`")
            for (i = 2; i <= n; i += 2) { sub(/\(.*$/, "", part[i]); sub(/^.*::/, "", part[i]); print file "\t" part[i] }
        }
        # the file of a module, as desk_arrays::state
        function module(path,   part) { return split(path, part, "::") == 2 ? "crates/" part[1] "/src/" part[2] ".rt" : "crates/" path "/src/lib.rt" }
        FILENAME ~ /PROMISES|promises\/|BELIEVE/ && /^\|/ {
            n = split($0, cell, "|")
            for (i = 2; i < n; i++) if (cell[i] ~ /^ *`crates\/[^`]*\.(antt|rt)` *$/) {
                file = cell[i]; gsub(/[ `]/, "", file)
                names(cell[i + 1], file)
            }
        }
        FILENAME ~ /LINKING/ && /^\|/ {
            n = split($0, cell, "|")
            if (cell[3] ~ /^ *`[a-z_]+(::[a-z_]+)?` *$/) { file = cell[3]; gsub(/[ `]/, "", file); names(cell[2], module(file)) }
            else if (match(cell[2], /\(`[a-z_]+(::[a-z_]+)?`\)/)) names(substr(cell[2], 1, RSTART - 1), module(substr(cell[2], RSTART + 2, RLENGTH - 4)))
        }
        {
            line = $0
            while (match(line, /`[^`]+`((, | and )`[^`]+`)* (\(|of |in )`crates\/[^`]+\.(antt|rt)`/)) {
                found = substr(line, RSTART, RLENGTH)
                line = substr(line, RSTART + RLENGTH)
                file = found; sub(/`$/, "", file); sub(/^.*`/, "", file)
                sub(/ (\(|of |in )`[^`]*`$/, "", found)
                names(found, file)
            }
        }' $pages | declared
}
