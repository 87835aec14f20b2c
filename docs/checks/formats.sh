# The examples of two pages, against the built programs.

# docs/FORMATS.md: tables under a heading that names a program. Lines stand in backticks, with an arrow for a tab and a sign for a carriage return; the
# last one lacks its newline where the row says so. Or '(nothing)', '(an empty line)', or so many bytes.
formats() {
    awk '
        /^## / { program = ""; if (match($0, /\(`[a-z_]+`\)/)) program = substr($0, RSTART + 2, RLENGTH - 4) }
        program != "" && /^\| (`|\()/ { print program "\t" $0 }' docs/FORMATS.md |
        while IFS=$'\t' read -r program row; do
            input=$(cut -d '|' -f 2 <<<"$row") wanted=$(cut -d '|' -f 3 <<<"$row")
            lines() { grep -o '`[^`]*`' | tr -d '`' | sed 's/→/\t/g; s/␍/\r/g'; }
            case $input in
            *'(nothing)'*) : >"$log/in" ;;
            *'(an empty line)'*) echo >"$log/in" ;;
            *'(no newline)'*) lines <<<"$input" | head -c -1 >"$log/in" ;;
            *' bytes)'*) head -c "$(tr -dc 0-9 <<<"$input")" /dev/zero >"$log/in" ;;
            *) lines <<<"$input" >"$log/in" ;;
            esac
            lines <<<"$wanted" >"$log/wanted"
            if [ -s "$log/wanted" ]; then writes "$program" "$log/in" "$log/wanted" "docs/FORMATS.md,$input"; else echo "docs/FORMATS.md,$input: no output stands there"; fi
        done
    shown
}

# docs/PROGRAMS.md: in an indented block a line '$ COMMAND', which ends in the name of the section's program, and under it the lines that this program
# writes. Every section has one.
shown() {
    local n=0 section command program
    awk -v OFS='\t' -v to="$log/shown" '
        /^## / { if (bare) print section, ""; section = $2; bare = 1 }
        !/^    / { wanted = "" }
        /^    \$ / { print section, substr($0, 7); bare = 0; wanted = to (++n); printf "" >wanted; next }
        wanted != "" { print substr($0, 5) >wanted }
        END { if (bare) print section, "" }' docs/PROGRAMS.md >"$log/shown"
    while IFS=$'\t' read -r section command; do
        [ -n "$command" ] || { echo "docs/PROGRAMS.md, $section: no example"; continue; }
        n=$((n + 1)) program=${command##*| }
        if [ "$program" != "$section" ]; then echo "docs/PROGRAMS.md, $section: the example runs $program"
        elif ! eval "${command% | *}" >"$log/in"; then echo "docs/PROGRAMS.md, $section: '${command% | *}' makes no text"
        else writes "$program" "$log/in" "$log/shown$n" "docs/PROGRAMS.md, '$command'"; fi
    done <"$log/shown"
}
