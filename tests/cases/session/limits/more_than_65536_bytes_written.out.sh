# 500 times accepted, a table too short, the text, and the card
awk 'function rules(  rule, n) {
    for (rule = 0; rule < 500; rule++) {
        printf "(rule"
        for (n = 985; n <= 1000; n++) printf " (no %d)", n
        print ")"
    }
}
BEGIN {
    for (rule = 0; rule < 500; rule++) print "(accepted)"
    print "(refused 31 505)\n(book 1)\n(flags)"
    printf "(exists"
    for (n = 985; n <= 1000; n++) printf " %d", n
    print ")"
    rules()
    print "(end)\n(card 1)\n(line)\n(visits 2)\n(end)"
}'
