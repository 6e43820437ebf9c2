# 500 rules of 16 literals
awk 'BEGIN {
    printf "(book 1)\n(flags)\n(exists"
    for (n = 985; n <= 1000; n++) printf " %d", n
    print ")\n(end)"
    for (rule = 0; rule < 500; rule++) {
        printf "(rule"
        for (n = 985; n <= 1000; n++) printf " (no %d)", n
        print ")"
    }
    print "(write 65536)\n(write)\n(card)"
}'
