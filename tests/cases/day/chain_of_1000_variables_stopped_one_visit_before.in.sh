# flag 1, exists 2 to 1000, each equal to the one before, and rule 1000: its card needs 3,999 visits
awk 'BEGIN {
    print "(day 31984)\n(place 3 1000 4000)\n(book 1)\n(flags 1)"
    printf "(exists"
    for (n = 2; n <= 1000; n++) printf " %d", n
    print ")"
    for (n = 2; n <= 1000; n++) printf "(rule (no %d) %d)\n(rule %d (no %d))\n", n - 1, n, n - 1, n
    print "(rule 1000)\n(end)"
    print "(shares)"
    print "(at 3 (card (ceiling 3998)))"
    print "(at 3 (card))"
    print "(at 3 (card (ceiling 0)))"
    print "(shares)"
}'
