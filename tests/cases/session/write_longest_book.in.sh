# The longest text: 40 variables in groups of one, 255 rules of 16 literals, each off and with two digits. Its table, and one byte less.
awk 'BEGIN {
    print "(book 1)\n(flags)"
    for (v = 1; v <= 40; v++) print "(" (v % 2 ? "exists" : "forall") " " v ")"
    for (r = 0; r < 255; r++) {
        printf "(rule"
        for (v = 25; v <= 40; v++) printf " (no %d)", v
        print ")"
    }
    print "(end)"
}'
echo "(write)"
echo "(write 34919)"
echo "(write 34918)"
