# flag 1, exists 2 to 300, each equal to the one before, and rule 300
awk 'BEGIN {
    print "(book 1)\n(flags 1)"
    printf "(exists"
    for (n = 2; n <= 300; n++) printf " %d", n
    print ")"
    for (n = 2; n <= 300; n++) printf "(rule (no %d) %d)\n(rule %d (no %d))\n", n - 1, n, n - 1, n
    print "(rule 300)\n(end)"
    print "(write)"
}'
