# Functions that callers reach, and conversions, against what 01 asks of each (01, How much a contract says).

# the files of a crate that callers reach: its root, and what `pub mod` leads to from there
opened() { # FILE FOLDER
    local name
    echo "$1"
    for name in $(sed -n 's/^pub mod \([a-z0-9_]*\);.*/\1/p' "$1"); do opened "$2/$name.rt" "$2/$name"; done
}

# the public functions of those files, what these pass on by `pub use`, and every public method, which goes with its type; to a line, parted by tabs: file, name, the module that its proofs have for
# it (with the type of a method), whether it states something, requires something, lends something to be changed
reached() { # CRATE
    local files names
    files=$(opened "crates/$1/src/lib.rt" "crates/$1/src")
    # shellcheck disable=SC2086
    names=$(sed -n 's/;.*//; s/ as [A-Za-z0-9_]*//g; s/[{},]/ /g; s/^pub use .*:://p' $files)
    find "crates/$1/src" -name '*.rt' -print0 | sort -z | xargs -0 awk -v files=" ${files//$'\n'/ } " -v names=" ${names//[$'\n ']/  } " -v OFS='\t' '
        FNR == 1 { type = ""; head = 0; module = FILENAME; sub(/^crates\/[^\/]*\/src\//, "", module); sub(/\.rt$/, ".", module); sub(/^lib\.$/, "", module); gsub(/\//, ".", module) }
        /^impl / { type = $2 "." }
        /^}/ { type = "" }
        match($0, /^ *pub (extern "C" )?fn [a-zA-Z0-9_]+/) {
            name = substr($0, RSTART, RLENGTH); sub(/^.* /, "", name)
            head = type != "" || index(files, " " FILENAME " ") || index(names, " " name " "); states = requires = lends = "no"
        }
        head && /^ *ensures / { states = "yes" }
        head && /^ *requires / { requires = "yes" }
        head && /&('"'"'[a-z]+ )?mut / && !/^ *(ensures|requires) / { lends = "yes" }
        # the body begins
        head && /{$/ && !/^ *(ensures|requires) / { head = 0; print FILENAME, name, module type name, states, requires, lends }'
}

# the conversions of a crate (`impl From<A> for B`); to a line, parted by tabs: file, what it converts, the module that its proofs have for it, whether it states what it gives
conversions() { # CRATE
    find "crates/$1/src" -name '*.rt' -print0 | sort -z | xargs -0 awk -v OFS='\t' '
        function joined(type,   i, n, part, all) { n = split(type, part, /[^A-Za-z0-9]+/); for (i = 1; i <= n; i++) all = all toupper(substr(part[i], 1, 1)) substr(part[i], 2); return all }
        FNR == 1 { into = ""; module = FILENAME; sub(/^crates\/[^\/]*\/src\//, "", module); sub(/\.rt$/, ".", module); sub(/^lib\.$/, "", module); gsub(/\//, ".", module) }
        /^impl From<.*> for .* \{$/ {
            split_at = index($0, "> for "); from = substr($0, 11, split_at - 11); into = substr($0, split_at + 6); sub(/ \{$/, "", into); states = "no"
        }
        into != "" && /^    ghost from_gives = / { states = "yes" }
        into != "" && /^}/ { print FILENAME, "From<" from "> for " into, module joined(into) "From" joined(from) ".from", states; into = "" }'
}

# the theorems NAME_unique of a crate, in the files that its proofs/Lib.antt declares; to a line, parted by tabs: the theorem, how it says that there is
# no second result, each module over whose contract it says so, and its file
uniques() { # CRATE
    # shellcheck disable=SC2046
    awk -v crate="$1" -v OFS='\t' '
        function tell(   i, n, part, word) {
            n = split(said, part, /[ \t(){}]+/)
            for (i = 1; i <= n; i++) { word = part[i]; if (sub(/\.(Post|clauses|ensures-1)$/, "", word) && word in of) print theorem, how, of[word], file }
            theorem = ""
        }
        FNR == 1 { if (theorem != "") tell(); split("", of) }
        $1 == "use" && index($2, "Rattle." crate ".proofs.") == 1 && $3 == "as" { path = substr($2, length("Rattle." crate ".proofs.") + 1); sub(/\.Reads$/, "", path); of[$4] = path }
        $1 == "use" && index($2, "Rattle." crate ".specs.contracts.") == 1 && $3 == "as" { of[$4] = substr($2, length("Rattle." crate ".specs.contracts.") + 1) }
        theorem != "" && $1 == theorem { tell() }
        $1 == "pub" && $2 ~ /_unique$/ && $3 == ":" { theorem = $2; file = FILENAME; how = $4 ~ /^Unique/ ? $4 : "other"; said = "" }
        theorem != "" { said = said " " $0; if (how == "other" && /x ≡ y/) how = "x ≡ y" }
        END { if (theorem != "") tell() }' $(sed -n "s,^pub mod \([A-Za-z0-9]*\)\$,crates/$1/proofs/\1.antt,p" "crates/$1/proofs/Lib.antt" 2>/dev/null) /dev/null
}

# what C calls, the functions of tuyenlomac_c, against those of the same names in tuyenlomac, whose contracts the theorems speak of: parameters, result
# and clauses are the same, word for word, and each of these has its export
exports() {
    local export file
    signatures() { # FILE
        awk '
            /^(#\[unsafe\(no_mangle\)\])$/ { next }
            /^pub (extern "C" )?fn tuyenlomac_/ { inside = 1; said = ""; sub(/extern "C" /, "") }
            inside && /{$/ && !/^ *(ensures|requires) / { inside = 0; gsub(/[ ,]+/, " ", said); sub(/ \)/, ")", said); sub(/\( /, "(", said); print said; next }
            inside { line = $0; gsub(/^ +/, "", line); said = said " " line }' "$1"
    }
    [ "$(cat crates/tuyenlomac_c/src/*.rt | grep -cx '#\[unsafe(no_mangle)\]')" = 10 ] && echo ok || echo "crates/tuyenlomac_c has not ten exports"
    for export in crates/tuyenlomac_c/src/*.rt; do
        file=crates/tuyenlomac/src/$(basename "$export")
        [ "$(basename "$export")" != lib.rt ] || continue
        signatures "$export" >"$log/exports"
        signatures "$file" >"$log/called"
        if [ -s "$log/exports" ] && cmp -s "$log/exports" "$log/called"; then echo ok; else echo "$export does not export what $file has, by the same contracts"; diff "$log/exports" "$log/called" | head -n 2; fi
    done
}

contracts() {
    local crate file name module states requires lends theorem how proof excepted
    # exceptions stand in rows with these words, each function as `crate::name`
    excepted=" $(grep 'exception to full contracts' docs/DECISIONS.md | grep -oE '`[a-z_]+::[a-z_]+`' | tr -d '`' | tr '\n' ' ')"
    exports
    for crate in $(sed -n 's/^\([a-z0-9_]*\):.*/\1/p' crates.txt); do
        # a program has no callers, and a crate of theory no functions
        [ -f "crates/$crate/src/lib.rt" ] || continue
        reached "$crate" >"$log/reached"
        [ -s "$log/reached" ] || continue
        uniques "$crate" >"$log/uniques"
        while IFS=$'\t' read -r file name module states requires lends; do
            [ "$requires" = no ] || echo "$file: $name is public, and has a requires"
            case $excepted in *" $crate::$name "*) echo ok; continue ;; esac
            [ "$states" = yes ] || echo "$file: $name is public, and states nothing of what it returns"
            # where two functions have one name the theorem has the module in front of it
            theorem=${name}_unique
            [ "$(cut -f 2 "$log/reached" | grep -cx "$name")" = 1 ] || theorem=$(sed 's/.*\.\([^.]*\)\.[^.]*$/\1/' <<<".$module")_$theorem
            IFS=$'\t' read -r how proof < <(awk -F '\t' -v OFS='\t' -v theorem="$theorem" -v module="$module" '$1 == theorem && $3 == module { print $2, $4; exit }' "$log/uniques")
            case $how:$lends in
            '':*) echo "$file: of $name there is no theorem $theorem over its contract" ;;
            other:* | Unique:yes) echo "$file: $theorem does not say that there is no second result, with all that is lent" ;;
            *) if grep -F "| \`$proof\` |" docs/promises/*.md | grep -qF "\`$theorem\`"; then echo ok; else echo "no page of docs/promises/ cites $theorem of $proof"; fi ;;
            esac
        done <"$log/reached"
        while IFS=$'\t' read -r file name module states; do
            [ "$states" = yes ] || echo "$file: $name states nothing of what it gives"
            IFS=$'\t' read -r theorem how proof < <(awk -F '\t' -v OFS='\t' -v module="$module" '$3 == module { print $1, $2, $4; exit }' "$log/uniques")
            case $how in
            Unique*) if grep -F "| \`$proof\` |" docs/promises/*.md | grep -qF "\`$theorem\`"; then echo ok; else echo "no page of docs/promises/ cites $theorem of $proof"; fi ;;
            *) echo "$file: of $name no theorem of the form NAME_unique says that there is no second result ($module)" ;;
            esac
        done < <(conversions "$crate")
    done
}
