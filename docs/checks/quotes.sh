# What pages tell of an example, above all of the night, against what the built programs write of it.

# The records that pages quote, to a line, parted by tabs: page, example, desk (locks or stamps), after which line of it (0: at its end), what it is to be
# (answer, verdict, chain, past N: in the history by line N, either request or history, lines: how many the requests have, or the line of the requests
# with this number), and the record with blanks for its tabs.
# A section is about the example that it named last (`examples/NAME.requests`, or the night), a row of examples/README.md about the one in its first cell;
# within a paragraph the desk is the one named last, or else the lock desk.
quoted() {
    # shellcheck disable=SC2086
    awk -v OFS='\t' '
        function tell(what, record) { if (text != "") print FILENAME, text, desk, after, what, record }
        # a token in backticks: a record by its form; before and behind are what stands around it
        function record(r, before, behind) {
            if (r ~ /^[0-9]+ (go|wait|back|wake|no)( [0-9]+)+$/) { tell("answer", r); answered = r; sub(/ .*$/, "", answered) }
            else if (r ~ /^(orderly|knot|dirty|no)( [0-9]+)+$/) tell("verdict", r)
            else if (r ~ /^[0-9]+( [0-9]+)+$/) tell("chain", r)
            else if (r ~ /^[bcatrwiuk]( [0-9]+)+$/) {
                if (before ~ /[Ll]ine [0-9]+, $/) { sub(/, $/, "", before); sub(/^.*[Ll]ine /, "", before); tell(before, r) }
                else if (behind ~ /^, line [0-9]+/) { sub(/^, line /, "", behind); sub(/[^0-9].*$/, "", behind); tell(behind, r) }
                else if (before ~ / for the line $/) tell(answered, r)
                else tell(past && answered ? "past " answered : "either", r)
            }
        }
        function scan(line,   token, before) {
            gsub(/` tab `/, " ", line); gsub(/→/, " ", line)
            if (text == "" && line ~ /the night/) text = "night"
            # what is in backticks, the example, the desk, the moment, and the end of a sentence
            while (match(line, /`[^`]*`|(head -n [0-9]+ )?examples\/[A-Za-z0-9-]+\.requests|imestamp desk|nder timestamps|ock desk|nder locks|after line [0-9]+|in the history|night of [0-9]+ lines|\. /)) {
                token = substr(line, RSTART, RLENGTH); before = substr(line, 1, RSTART - 1); line = substr(line, RSTART + RLENGTH)
                if (token ~ /examples\/.*\.requests/) {
                    text = token; gsub(/^.*examples\/|\.requests.*$/, "", text); desk = "locks"; after = 0
                    if (token ~ /^head/) { after = token; gsub(/^head -n | .*$/, "", after) }
                    if (line ~ /^, [0-9]+ lines/) { token = line; gsub(/^, | lines.*$/, "", token); tell("lines", token) }
                }
                else if (token ~ /^night of/) { gsub(/[^0-9]/, "", token); tell("lines", token) }
                else if (token ~ /imestamp|^`stamp_/) desk = "stamps"
                else if (token ~ /ock desk|nder locks|^`(answers|history)`$/) desk = "locks"
                else if (token ~ /^after line/) { after = token; gsub(/[^0-9]/, "", after) }
                else if (token == "in the history") past = 1
                else if (token == ". ") past = 0
                else { gsub(/`/, "", token); record(token, before, line) }
            }
        }
        FNR == 1 || /^#/ { text = ""; after = 0 }
        FNR == 1 || /^(#|\||$)/ { desk = "locks"; past = answered = 0 }
        FILENAME == "examples/README.md" && /^\| [A-Za-z0-9-]+ \|/ { text = $2; after = 0 }
        { scan($0) }' $pages crates/*/README.md
}

# what the programs write of an example, or of its first lines, in files of $log/NAME@AFTER.*
run_example() { # NAME AFTER
    local at="$log/$1@$2" program
    [ ! -e "$at.verdict" ] || return 0
    if [ -f "examples/$1.requests" ]; then
        if [ "$2" = 0 ]; then cat "examples/$1.requests"; else head -n "$2" "examples/$1.requests"; fi >"$at.requests"
        for program in answers history chain stamp_answers stamp_history; do ./run "$program" <"$at.requests" >"$at.$program" || return 1; done
        ./run verdict <"$at.stamp_history" >"$at.stamp_verdict" || return 1
    elif [ -f "examples/$1.history" ]; then cp "examples/$1.history" "$at.history"
    else return 1; fi
    ./run verdict <"$at.history" >"$at.verdict"
}

# what the history has of the step of one line: behind what it has of the lines before
history_of_line() { # NAME LINE PROGRAM
    local before=0
    run_example "$1" "$2" || return 1
    if [ "$2" -gt 1 ]; then run_example "$1" $(($2 - 1)) && before=$(wc -l <"$log/$1@$(($2 - 1)).$3"); fi
    tail -n +$((before + 1)) "$log/$1@$2.$3"
}

quotes() {
    local page text desk after what record stamp at files
    quoted >"$log/quoted"
    for page in README.md docs/LIBRARY.md examples/README.md crates/chain/README.md; do
        grep -q "^$page	" "$log/quoted" || echo "$page: no record of an example was found there"
    done
    while IFS=$'\t' read -r page text desk after what record; do
        run_example "$text" "$after" 2>"$log/err" || { echo "$page: the programs cannot be run on the example $text: $(head -n 1 "$log/err")"; continue; }
        at="$log/$text@$after" stamp=''
        [ "$desk" = locks ] || stamp=stamp_
        case $what in
        answer) files=$at.${stamp}answers ;;
        verdict) files=$at.${stamp}verdict ;;
        past*) history_of_line "$text" "${what#past }" "${stamp}history" >"$log/past" 2>&1; files=$log/past ;;
        chain) files=$at.chain ;;
        either) files="$at.requests $at.${stamp}history" ;;
        lines)
            if [ "$(wc -l <"$at.requests")" = "$record" ]; then echo ok; else echo "$page: $text.requests has not $record lines"; fi
            continue ;;
        *)
            if [ "$(sed -n "${what}p" "$at.requests" | tr '\t' ' ')" = "$record" ]; then echo ok; else echo "$page: line $what of $text.requests is not $record"; fi
            continue ;;
        esac
        # shellcheck disable=SC2086
        if cat $files 2>/dev/null | tr '\t' ' ' | grep -qxF -- "$record"; then echo ok; else echo "$page: $record is nothing that the programs write there (example $text, $desk, $what)"; fi
    done <"$log/quoted"
}
