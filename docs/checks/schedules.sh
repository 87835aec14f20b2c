# docs/SCHEDULES.md against crates/try_judge/stdin, the cases in their order, and against what try_judge says of each.

# A row has a case, or 'A to B', in its first cell. In the column Expected stand the verdict and, where the judge hands back the faulty line, 'and the
# line'; of several cases so many of each verdict, or '`knot` and 1 to n' for the n that the row names. The column Lines, where there is one, has all
# lines of the case; and a row that speaks of so many places or lines has a case with so many.
schedules() {
    local file=crates/try_judge/stdin
    if ! ./run try_judge <"$file" >"$log/said" 2>"$log/err"; then echo "try_judge failed: $(head -n 1 "$log/err")"; return; fi
    awk -v FS='\t' '
        function wrong(what) { print "docs/SCHEDULES.md, case " first (first == last ? "" : " to " last) ": " what; bad = 1 }
        function plain(number) { gsub(/,/, "", number); return number + 0 }
        # the lines in a cell: `r 1 0`, or 4,093 times `r 1 0`, one after the other in line[1] to line[n]
        function listed(text,   n, times, one) {
            n = 0
            while (match(text, /([0-9,]+ times )?`[^`]*`/)) {
                one = substr(text, RSTART, RLENGTH); text = substr(text, RSTART + RLENGTH)
                times = 1; if (one ~ / times /) { times = one; sub(/ .*$/, "", times); times = plain(times) }
                gsub(/^[^`]*`|`$/, "", one)
                while (times-- > 0) line[++n] = one
            }
            return n
        }
        function one_case(c, expected, lines, row,   n, i, want, number) {
            want = expected; sub(/^`/, "", want); sub(/`.*$/, "", want)
            if (said[c] != want) wrong("expected is " want ", and try_judge says " said[c])
            if ((expected ~ /` and the line$/) != (c in handed)) wrong(c in handed ? "the line that is handed back is not told" : "no line is handed back")
            if (c in handed) { number = want; sub(/^no /, "", number); sub(/ .*$/, "", number); if (handed[c] != text[c, number + 0]) wrong("not line " number " is handed back") }
            if (lines != "") {
                n = listed(lines); if (n != size[c]) wrong("has not the " size[c] " lines of the case")
                for (i = 1; i <= n; i++) if (line[i] != text[c, i]) { wrong("its line " i " is not " text[c, i]); break }
            }
            if (match(row, /[0-9]+ places/) && substr(row, RSTART, RLENGTH) + 0 != places[c] || row ~ /no place at all/ && places[c]) wrong("the case has " places[c] " places")
            if (match(row, /[0-9,]+ lines/) && plain(substr(row, RSTART, RLENGTH - 6)) != size[c]) wrong("the case has " size[c] " lines")
        }
        # so many of each verdict, and no other
        function counted(expected,   c, n, i, part, want) {
            for (c = first; c <= last; c++) tally[said[c]]++
            n = split(expected, part, /, */)
            for (i = 1; i <= n; i++) {
                want = part[i]; gsub(/^[^`]*`|`$/, "", want)
                if (tally[want] != part[i] + 0) wrong("try_judge says " want " of " tally[want] + 0 " cases")
                delete tally[want]
            }
            for (want in tally) { if (tally[want]) wrong("try_judge says " want " too"); delete tally[want] }
        }
        # a knot of each length that is named
        function knots(row,   c, n, i, part, want) {
            sub(/^.* n = /, "", row); sub(/:.*$/, "", row); n = split(row, part, /, */)
            if (n != last - first + 1) wrong("not as many n as cases")
            for (c = first; c <= last; c++) {
                want = "knot"; n = part[c - first + 1] + 0
                for (i = 1; i <= n; i++) want = want " " i
                if (said[c] != want) wrong("case " c " is no knot of 1 to " n)
            }
        }
        FILENAME ~ /stdin$/ && /^=/ { cases++; places[cases] = substr($0, 2) + 0; next }
        FILENAME ~ /stdin$/ { gsub(/\t/, " "); text[cases, ++size[cases]] = $0; next }
        FILENAME ~ /said$/ && /^line\t/ { sub(/^line\t/, ""); gsub(/\t/, " "); handed[told] = $0; next }
        FILENAME ~ /said$/ { gsub(/\t/, " "); said[++told] = $0; next }
        /^\| Case / {
            n = split($0, head, / *\| */); wanted = lined = 0
            for (i = 1; i <= n; i++) { if (head[i] == "Expected") wanted = i; if (head[i] == "Lines") lined = i }
            next
        }
        match($0, /^(\| |Cases )[0-9]+( to [0-9]+)?/) {
            split(substr($0, RSTART, RLENGTH), part, / +/); first = part[2] + 0; last = part[4] == "" ? first : part[4] + 0; bad = 0
            split($0, cell, / *\| */)
            if (first != seen + 1) wrong("the row before ends with case " seen)
            seen = last
            # generated ones: as many as the second program was asked for, and what it says of them stands in the file stdout
            if (/^Cases /) {
                if (!match($0, /make cases [0-9]+ [0-9]+/)) wrong("does not say how they are made")
                split(substr($0, RSTART, RLENGTH), part, " "); if (part[4] != last - first + 1) wrong("are not " part[4])
            }
            else if (cell[wanted] ~ /^`knot` and 1 to n$/) knots($0)
            else if (first != last) counted(cell[wanted])
            else one_case(first, cell[wanted], lined ? cell[lined] : "", $0)
            if (!bad) print "ok"
        }
        END { if (cases != told || cases != seen) print "docs/SCHEDULES.md ends with case " seen ", of " cases " in crates/try_judge/stdin" }' "$file" "$log/said" docs/SCHEDULES.md
}
