# The table of refusals, wherever it stands on a page (| No. | When | Given by |), against definitions, header and programs.

# the rows of every such table, parted by tabs: page, number, when, given by
refusal_rows() {
    # shellcheck disable=SC2086
    awk -F ' *[|] *' -v OFS='\t' '!/^\|/ { inside = 0 } inside && $2 ~ /^[0-9]+$/ { print FILENAME, $2, $3, $4 } /^\| No\. \| When \| Given by \|/ { inside = 1 }' $pages
}
# the numbers of the definitions, with the words above each: number, words without their place in the papers
defined_refusals() {
    awk -v OFS='\t' '
        /^-- / { words = substr($0, 4); sub(/ \(02, No\. [0-9]+\)$/, "", words) }
        /^number_of / { number = $0; sub(/^.*= /, "", number); print number, words }' crates/terms/specs/Refusals.antt
}
# the numbers that code has, with what the comments say: number, comment. Of the enum of refusals, of the header, and of the face in Rust
coded_refusals() { # FILE
    case $1 in
    *.rt) sed -n '/^pub enum Refusal {/,/^}/s/^ *\/\/ \([0-9]*\): \(.*\)$/\1\t\2/p' "$1" ;;
    *.h) sed -n '/^enum tuyenlomac_refusal {/,/^};/s/^ *TUYENLOMAC_[A-Z_]* = \([0-9]*\),\{0,1\} *\(.*\)$/\1\t\2/p' "$1" ;;
    *.rs) awk -v OFS='\t' '
        /^pub enum Refusal {/ { inside = 1; next }
        /^}/ { inside = 0 }
        inside && /\/\/\// { words = $0 }
        inside && / = [0-9]+,$/ { print $NF + 0, words }' "$1" ;;
    esac
}

# number and words of a page's rows beside those of the definitions, and its numbers beside those of code, header and face
refusal_numbers() { # PAGE
    local number words when file said n
    cut -f 1 "$log/defined" | sort -n | uniq -d | while read -r number; do echo "the definitions have the number $number twice"; done
    if [ "$(cut -f 2 "$log/rows")" = "$(cut -f 1 "$log/defined" | sort -n)" ]; then echo ok; else echo "$1: the numbers of the table are not those of the definitions, each once and ascending"; fi
    while IFS=$'\t' read -r number words; do
        when=$(awk -F '\t' -v n="$number" '$2 == n { gsub(/`/, "", $3); print $3 }' "$log/rows")
        # either has the other's words in front; one may say more
        case $when in "$words"*) echo ok; continue ;; esac
        case $words in "${when:-no row}"*) echo ok ;; *) echo "$1: of $number the definitions say: $words" ;; esac
    done <"$log/defined"
    for file in crates/terms/src/refusals.rt include/tuyenlomac.h library/tuyenlomac.rs; do
        coded_refusals "$file" | sort -n >"$log/coded"
        # the library has no 16, which is of the program verdict alone
        case $file in *.rt) cut -f 2 "$log/rows" ;; *) cut -f 2 "$log/rows" | grep -vx 16 ;; esac >"$log/wanted"
        if cut -f 1 "$log/coded" | cmp -s - "$log/wanted"; then echo ok; else echo "$1: the numbers of the table are not those of $file"; fi
        # each number that a comment has stands in the row
        while IFS=$'\t' read -r number said; do
            for n in $(grep -oE '[0-9][0-9,]*[0-9]|[0-9]' <<<"$said"); do
                if limits "$number" | grep -qx "${n//,/}"; then echo ok; else echo "$1: of $number $file says $n, and the table does not"; fi
            done
        done <"$log/coded"
    done
}

# docs/promises/scope-refusals.md: rows '| N: words |' name no limit that row N of the table has not (0 apart), and every number begins a row, or stands in
# one that begins with several
refusals_promised() {
    local number words n
    sed -n 's/^| \([0-9][0-9, ]*\)\(: \| with \| of \)\([^|]*\) |.*/\1\t\2\t\3/p' docs/promises/scope-refusals.md >"$log/promised"
    if [ "$(cut -f 1 "$log/promised" | tr -d ' ' | tr ',' '\n' | sort -nu)" = "$(cut -f 1 "$log/defined" | sort -n)" ]; then echo ok
    else echo "docs/promises/scope-refusals.md: not every refusal has its row, or there is one too many"; fi
    grep '	: 	' "$log/promised" | while IFS=$'\t' read -r number _ words; do
        for n in $(grep -oE '[0-9][0-9,]*[0-9]|[0-9]' <<<"${words%%: see*}" | grep -vx 0); do
            if limits "$number" | grep -qx "${n//,/}"; then echo ok; else echo "docs/promises/scope-refusals.md, refusal $number: the table has no $n there"; fi
        done
    done
}

# the numbers that a row names, without their commas, to a line each
limits() { awk -F '\t' -v n="$1" '$2 == n { print $3 }' "$log/rows" | grep -oE '[0-9][0-9,]*[0-9]|[0-9]' | tr -d ','; }
# a limit that a row names, as a number; the second one of '1 to 255' by 2
limit() { # NUMBER [WHICH]
    limits "$1" | sed -n "${2:-1}p"
}
# the field that row 9 tells for 'letter', 'job', 'cell' or 'what follows'
field() { awk -F '\t' '$2 == 9 { print $3 }' "$log/rows" | grep -oE "[0-9] (the )?$1" | grep -oE '^[0-9]'; }
# the letters of the requests that a row names, to a line each
named() {
    awk -F '\t' -v n="$1" '$2 == n { print $3 }' "$log/rows" | grep -oE 'read|write|increment|`u`|commit|give-up|retry' |
        sed 's/read/r/; s/write/w/; s/increment/i/; s/`u`/u/; s/commit/c/; s/give-up/a/; s/retry/t/'
}
line() { local IFS=$'\t'; echo "$*"; }
times() { local n=$1; shift; while [ "$((n -= 1))" -ge 0 ]; do "$@"; done; }
begin() { times "$1" line b; }
# steps by numbers: a kind's letter as its byte, job, cell
step() { echo "$(printf %d "'$1") ${2:-0} ${3:-0}"; }
# of the text on standard input the program's last verdict, answer or record is this one; kept is who gives which refusal
gives() { # NUMBER-OR-DASH GIVER PROGRAM WANTED
    local last
    last=$(./run "$3" 2>&1 | grep -v '^line' | tail -n 1 | tr '\t' ' ')
    # behind a chain, or its refusal, try_desk tells what the list's other places still hold
    case $last in "$4" | "$4 40000000"*) echo ok ;; *) echo "$2, ${1/#-/beside the limit}: $3 says ${last:0:40}, where it should be $4 by the page" ;; esac
    [ "$1" = - ] || printf '%s\t%s\t%s\n' "$1" "$2" "$3" >>"$log/given"
}

# the requests' desks: each refusal where its row has it, and a request beside the limit that goes
desk_refusals() {
    local cell open last desk answers first kind kinds
    cell=$(limit 2) open=$(limit 6) last=$(limit 7)
    for desk in lock timestamp; do
        if [ $desk = lock ]; then answers=answers first=''; else answers=stamp_answers first=' 1'; fi
        { echo "1$first"; step x 1 5; } | gives 1 "$desk desk" try_desk 'no 1'
        # of all bytes so many are kinds
        kinds=$({ echo "1$first"; for kind in $(seq 0 255); do echo "$kind 1 5"; done; } | ./run try_desk | grep -vcx 'no	1')
        kinds=$(cut -d ' ' -f $((kinds + 1)) <<<'none one two three four five six seven eight nine ten')
        if awk -F '\t' '$2 == 1' "$log/rows" | grep -q "other than the $kinds\b"; then echo ok; else echo "$desk desk: there are $kinds kinds of request"; fi
        { begin 1; line r 1 $((cell + 1)); } | gives 2 "$desk desk" $answers '2 no 2'
        { begin 1; line r 1 "$cell"; } | gives - "$desk desk" $answers '2 go 1'
        line r 7 5 | gives 3 "$desk desk" $answers '1 no 3'
        { begin 1; line c 0; } | gives 3 "$desk desk" $answers '2 no 3'
        begin $((open + 1)) | gives 6 "$desk desk" $answers "$((open + 1)) no 6"
        begin "$open" | gives - "$desk desk" $answers "$open go $open"
        { echo "$last$first"; step b; step b; } | gives 7 "$desk desk" try_desk 'no 7'
        { echo "$last$first"; step b; } | gives - "$desk desk" try_desk "go $last"
        echo "0$first" | gives 10 "$desk desk" try_desk 'no 10'
        line x | gives 9 'line reader' $answers "1 no 9 $(field letter)"
        line c x | gives 9 'line reader' $answers "1 no 9 $(field job)"
        line r 1 100 | gives 9 'line reader' $answers "1 no 9 $(field cell)"
        line c 1 5 | gives 9 'line reader' $answers "1 no 9 $(field 'what follows')"
        printf b | gives 9 'line reader' $answers "1 no 9 $(field 'what follows')"
    done
    # job 1 waits for job 2, and all but what row 4 names is refused; job 2 was sent back, and what row 5 names is refused
    for kind in r w i u c t a; do
        case $kind in [rwiu]) cell=5 ;; *) cell='' ;; esac
        named 4 | grep -qx $kind && set -- - '5 go 1' || set -- 4 '5 no 4'
        { begin 2; line r 2 5; line w 1 5; line $kind 1 $cell; } | gives "$1" 'lock desk' answers "$2"
        named 5 | grep -qx $kind && set -- 5 '5 no 5' || set -- - '5 go 2'
        { begin 2; line r 1 5; line w 2 5; line $kind 2 $cell; } | gives "$1" 'lock desk' answers "$2"
    done
    { echo 1; step b; step b; step r 1 5; step w 2 5; echo "256 2 32"; } | gives 5 'lock desk' try_desk 'no 5'
    { begin 1; line t 1; } | gives 8 'lock desk' answers '2 no 8'
    { begin 1; line t 1; } | gives 19 'timestamp desk' stamp_answers '2 no 19'
    { echo 1; step b; echo "256 1 $(($(limit 18) - 1))"; } | gives 18 'lock desk' try_desk 'no 18'
    { echo 1; step b; echo "256 1 $(limit 18)"; } | gives - 'lock desk' try_desk 'chain 1 1'
}

# the judge and its program, likewise
judge_refusals() {
    local cell lines first last places bytes
    cell=$(limit 2) lines=$(limit 11) first=$(limit 12) last=$(limit 12 2) places=$(limit 14) bytes=$(limit 16)
    line r 1 $((cell + 1)) | gives 2 judge verdict 'no 1 2'
    { line r 1 "$cell"; line c 1; } | gives - judge verdict 'orderly 1'
    line x | gives 9 'line reader' verdict "no 1 9 $(field letter)"
    line c x | gives 9 'line reader' verdict "no 1 9 $(field job)"
    line r 1 100 | gives 9 'line reader' verdict "no 1 9 $(field cell)"
    printf 'c\t1' | gives 9 'line reader' verdict "no 1 9 $(field 'what follows')"
    times "$lines" line r 1 0 | gives 11 judge verdict "no $lines 11"
    times $((lines - 1)) line r 1 0 | gives - judge verdict orderly
    line c $((first - 1)) | gives 12 judge verdict 'no 1 12'
    line c $((last + 1)) | gives 12 judge verdict 'no 1 12'
    { line c "$first"; line c "$last"; } | gives - judge verdict "orderly $first $last"
    { line c 1; line r 1 0; } | gives 13 judge verdict 'no 2 13'
    { line a 1; line r 1 0; } | gives 13 judge verdict 'no 2 13'
    { line k 1; line c 1; } | gives - judge verdict 'orderly 1'
    { echo "= $((places - 1))"; line c 1; } | gives 14 judge try_judge 'no 0 14'
    { echo "= $places"; line c 1; } | gives - judge try_judge 'orderly 1'
    head -c $((bytes + 1)) /dev/zero | gives 16 'verdict program' verdict 'no 0 16'
    head -c "$bytes" /dev/zero | gives - 'verdict program' verdict 'no 1 9 1'
}

# who gives a refusal by the page, and by what was run; no program lends a buffer that is too small or writes a record that there is not, so that of
# the record writers library/test has it
refusal_givers() { # PAGE
    local number givers giver
    while IFS=$'\t' read -r _ number _ givers; do
        sed 's/both desks/lock desk, timestamp desk/; s/; /, /g; s/, */\n/g' <<<"$givers" | sed 's/^the //' | grep -v 'record writer$' | sort -u >"$log/page"
        awk -F '\t' -v n="$number" '$1 == n { print $2 }' "$log/given" | sort -u >"$log/ran"
        if cmp -s "$log/page" "$log/ran"; then echo ok; else echo "$1: $number is given by $givers, and was given by: $(paste -sd, "$log/ran" | sed 's/,/, /g')"; fi
    done <"$log/rows"
}

# docs/FORMATS.md: which program can print which, as '2 to 6, 8 and 9', and the others, in brackets
refusals_printed() {
    local program said
    said=$(grep -oE '`answers` can print .*' docs/FORMATS.md | sed 's/ Read the output.*//')
    numbers() { sed 's/ and /, /g; s/, */\n/g' | sed 's/^ *//; s/[^0-9to ]//g' | awk 'NF == 3 { for (i = $1; i <= $3; i++) print i } NF == 1 { print $1 }' | sort -n; }
    for program in answers stamp_answers verdict; do
        grep -oE "\`$program\` (can print )?[0-9][0-9a-z ,]*" <<<"$said" | sed 's/^`[a-z_]*` //; s/can print //; s/, and $//; s/, $//' | numbers >"$log/page"
        awk -F '\t' -v p="$program" '$3 == p { print $1 }' "$log/given" | sort -nu >"$log/ran"
        if cmp -s "$log/page" "$log/ran"; then echo ok; else echo "docs/FORMATS.md: $program printed $(paste -sd' ' "$log/ran"), and the page has $(paste -sd' ' "$log/page")"; fi
    done
    grep -oE '\([0-9, ]+\)' <<<"${said#*The others}" | tr -d '()' | numbers >"$log/page"
    awk -F '\t' '$3 ~ /^(answers|stamp_answers|verdict)$/ { print $1 }' "$log/given" | sort -nu >"$log/ran"
    cut -f 1 "$log/defined" | sort -n | grep -vxFf "$log/ran" >"$log/others"
    if cmp -s "$log/page" "$log/others"; then echo ok; else echo "docs/FORMATS.md: for callers of functions are $(paste -sd' ' "$log/others"), and the page has $(paste -sd' ' "$log/page")"; fi
}

refusals() {
    local page
    refusal_rows >"$log/tables"
    defined_refusals >"$log/defined"
    grep -q '^docs/FORMATS.md' "$log/tables" || echo "docs/FORMATS.md has no table of refusals"
    for page in $(cut -f 1 "$log/tables" | sort -u); do
        grep "^$page	" "$log/tables" >"$log/rows"
        : >"$log/given"
        refusal_numbers "$page"
        desk_refusals
        judge_refusals
        refusal_givers "$page"
    done
    grep '^docs/FORMATS.md	' "$log/tables" >"$log/rows"
    refusals_promised
    refusals_printed
}
