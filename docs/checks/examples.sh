# the files in examples/ against the programs
examples() {
    local file name
    for file in examples/*.requests; do
        name=${file%.requests}
        writes answers "$file" "$name.answers" "$name.answers"
        writes history "$file" "$name.history" "$name.history"
        # where nobody waits at the end there is no such file, and nothing is written
        if [ -f "$name.chain" ]; then writes chain "$file" "$name.chain" "$name.chain"; else writes chain "$file" /dev/null "$name.chain, which is not there"; fi
        # some of them are for the timestamp desk too
        [ -f "$name.stamp_answers" ] || continue
        writes stamp_answers "$file" "$name.stamp_answers" "$name.stamp_answers"
        writes stamp_history "$file" "$name.stamp_history" "$name.stamp_history"
        writes verdict "$name.stamp_history" "$name.stamp_verdict" "$name.stamp_verdict"
    done
    for file in examples/*.history; do
        writes verdict "$file" "${file%.history}.verdict" "${file%.history}.verdict"
    done
    for file in examples/*.answers examples/*.chain examples/*.verdict examples/*.stamp_*; do
        name=${file%.*}
        [ -f "$name.requests" ] || [ -f "$name.history" ] || echo "$file stands there without its input"
    done
    for file in examples/*.stamp_history examples/*.stamp_verdict; do
        [ -f "${file%.*}.stamp_answers" ] || echo "$file stands there without its answers, and is not looked at"
    done
}
