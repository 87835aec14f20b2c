# docs/FORMATS.md, Refusals: in which order refusals are tested, against the built programs. Of a text with two faults that one is told which comes
# first on the page. The texts are made by the functions of refusals.sh.

# the numbers behind some words of that section, in their order, up to the next of its sentences, or up to another mark
order_behind() { # WORDS [MARKS]
    sed -n '/^## Refusals/,$p' docs/FORMATS.md | grep -oE "$1[^${2:-.;}]*" | head -n 1 | sed -E "s/$1//" | grep -oE '[0-9]+' | tr '\n' ' '
}
# of the text on standard input the program's last record has, at its end or in front of the field of a 9, the one of two refusals that an order has first
tests_first() { # ORDER ONE OTHER PROGRAM
    local number wanted='' told
    for number in $1; do case $number in "$2" | "$3") wanted=$number; break ;; esac; done
    told=$(./run "$4" 2>&1 | grep -v '^line' | tail -n 1 | tr '\t' ' ' | sed 's/ 40000000.*//; s/^\(.* 9\) [1-4]$/\1/; s/.* //')
    if [ "$told" = "${wanted:-none}" ]; then echo ok; else echo "docs/FORMATS.md has ${wanted:-neither} of $2 and $3 first, and $4 tells $told"; fi
}

orders() {
    local judge others begins chain last
    judge=$(order_behind 'The judge tests each line for') chain=$(order_behind 'A question for a chain is tested for') last=4294967295
    { times 4096 line r 1 0; line x; } | tests_first "$judge" 11 9 verdict
    { times 4096 line r 1 0; line c 0; } | tests_first "$judge" 11 12 verdict
    line r 0 100 | tests_first "$judge" 9 12 verdict
    line r 0 64 | tests_first "$judge" 12 2 verdict
    { line c 1; line r 1 64; } | tests_first "$judge" 2 13 verdict
    { line c 1; line r 1 100; } | tests_first "$judge" 9 13 verdict
    # the lock desk's order and then the timestamp desk's: 1, what it says of a begin, and what it says of every other kind
    begins=$(order_behind 'The lock desk tests .* it tests a begin for' | cut -d ' ' -f 1,2)
    { echo $((last - 31)); times 33 step b; } | tests_first "1 $begins" 7 6 try_desk
    others="$(order_behind 'The lock desk tests every request for') $(order_behind 'The lock desk tests .* any other request for')"
    { echo 1; step x 7 64; } | tests_first "$others" 1 3 try_desk
    line r 7 64 | tests_first "$others" 3 2 answers
    { begin 2; line r 2 5; line w 1 5; line r 1 64; } | tests_first "$others" 4 2 answers
    { begin 2; line r 2 5; line w 1 5; line t 1; } | tests_first "$others" 4 8 answers
    { begin 2; line r 1 5; line w 2 5; line r 2 64; } | tests_first "$others" 5 2 answers
    begins=$(order_behind 'The timestamp desk tests .* it tests a begin for' | cut -d ' ' -f 1,2)
    { echo "$((last - 31)) 1"; times 33 step b; } | tests_first "1 $begins" 7 6 try_desk
    # up to the end of its line, with what is tested of a retry and of a request for a cell
    others="$(order_behind 'The timestamp desk tests every request for') $(order_behind 'The timestamp desk tests .* any other request for' '.')"
    { echo "1 1"; step x 7 64; } | tests_first "$others" 1 3 try_desk
    line t 7 | tests_first "$others" 3 19 stamp_answers
    line r 7 64 | tests_first "$others" 3 2 stamp_answers
    { echo 1; step b; echo '256 7 31'; } | tests_first "$chain" 3 18 try_desk
    { echo 1; step b; step b; step r 1 5; step w 2 5; echo '256 2 31'; } | tests_first "$chain" 5 18 try_desk
}
