# docs/MATRIX.md has two matrices, under the heads Held and Has, and below each its rows as definition and code have them. From the page, parted by
# tabs: 'entry', head, row, column, yes or no; and 'row', head, row, file, the row as it stands there, and whether its marks are those of the matrix
matrix_rows() {
    awk -F ' *[|] *' -v OFS='\t' '
        !/^\|/ { head = "" }
        /^\| (Held|Has) \|/ {
            head = $2
            for (i = 3; i < NF; i++) { top[i] = $i; sub(/^.* in `/, "", top[i]); sub(/`.*$/, "", top[i]) }
            next
        }
        head == "" || /^\|-/ { next }
        $3 ~ /^(yes|no)$/ {
            for (i = 3; i < NF; i++) { marks[head, $2] = marks[head, $2] ($i == "yes" ? "Y" : "N"); print "entry", head, $2, top[i], $i }
            next
        }
        {
            for (i = 3; i < NF; i++) {
                text = $i; gsub(/`/, "", text)
                said = text; sub(/\/\/.*$/, "", said); gsub(/[^YN]/, "", said)
                print "row", head, $2, top[i], text, said == marks[head, $2] ? "same" : "other"
            }
        }' docs/MATRIX.md
}

# mode_grants and mode_covers are one look into their table each, and that by the function and the tables of tables.rt: no comparison beside it
looked_up() {
    local file=crates/conflict/src/modes.rt pair name table
    for pair in mode_grants:GRANTS mode_covers:COVERS; do
        name=${pair%:*} table=${pair#*:}
        # the body without comments, and the two parameters in their order
        awk -v name="$name" -v table="$table" '
            /^pub fn / { reading = index($0, "pub fn " name "(") == 1; if (reading) { split($0, part, /[(:,] */); first = part[2]; second = part[4] } }
            { sub(/ *\/\/.*$/, "") }
            reading && /^{$/ { inside = 1; next }
            /^}$/ { inside = reading = 0 }
            inside && reading { sub(/^ */, ""); body = body $0 }
            END {
                if (body ~ ("^look\\(" table ", Row\\([YN], [YN], [YN], [YN]\\), " first ", " second "\\)$")) print "ok"
                else print "crates/conflict/src/modes.rt: " name " is not one look into " table " for " first " and " second
            }' "$file"
        if grep -E "^use crate::tables::\{.*\b$table\b.*\};$" "$file" | grep -qvw as && [ "$(grep -cE "(const|let) $table\b" "$file")" = 0 ]; then echo ok; else echo "$file does not take $table from tables.rt"; fi
    done
    if grep -E '^use crate::tables::\{.*\blook\b.*\};$' "$file" | grep -qvw as && ! grep -qE 'fn look\b' "$file"; then echo ok; else echo "$file does not take look from tables.rt"; fi
}

matrix() {
    local what head held other said same steps step n
    looked_up
    declare -A letter=([S]=r [X]=w [I]=i [U]=u)
    matrix_rows >"$log/matrix"
    [ "$(grep -c '^entry' "$log/matrix") $(grep -c '^row' "$log/matrix")" = '32 16' ] || echo "docs/MATRIX.md has not two matrices of sixteen entries, with four rows each of definition and of code"
    while IFS=$'\t' read -r what head held other said same; do
        if [ "$what" = row ]; then
            # the same marks, the mode's own row, and a line of that file
            if [ "$same" = same ] && [[ " $said " = *" $held "* ]] && sed 's/^ *//' "$other" | grep -qxF -- "$said"; then echo ok
            else echo "docs/MATRIX.md: $said is not its row $held, or no line of $other"; fi
            continue
        fi
        # letter and job of each step on cell 5: all go at once but the last, by which job 1 asks
        case $head$held in
        Held?) steps="${letter[$held]}2" ;;
        HasS) steps='r1 u2' ;;
        HasX) steps='w1' ;;
        HasI) steps='i1 i2' ;;
        HasU) steps='r2 u1' ;;
        esac
        steps+=" ${letter[$other]}1"
        printf 'b\nb\n' >"$log/in"
        printf '1\tgo\t1\n2\tgo\t2\n' >"$log/wanted"
        n=2
        for step in $steps; do
            n=$((n + 1))
            printf '%s\t%s\t5\n' "${step%?}" "${step#?}" >>"$log/in"
            printf '%s\tgo\t%s\n' "$n" "${step#?}" >>"$log/wanted"
        done
        [ "$said" = yes ] || sed -i '$s/go/wait/' "$log/wanted"
        writes answers "$log/in" "$log/wanted" "docs/MATRIX.md, $head $held, $other"
    done <"$log/matrix"
}
