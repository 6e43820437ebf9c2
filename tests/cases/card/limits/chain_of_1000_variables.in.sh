# flag 1, exists 2 to 1000, each equal to the one before, and rule 1000
awk 'BEGIN {
    print "(book 1)\n(flags 1)"
    printf "(exists"
    for (n = 2; n <= 1000; n++) printf " %d", n
    print ")"
    for (n = 2; n <= 1000; n++) printf "(rule (no %d) %d)\n(rule %d (no %d))\n", n - 1, n, n - 1, n
    print "(rule 1000)\n(end)"
}'
