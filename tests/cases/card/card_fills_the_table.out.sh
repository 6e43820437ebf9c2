# 4,096 lines of 16 bytes: flags 1 to 12 in every way, off before on, and 13 to 16 as 1 to 4
awk 'BEGIN {
    print "(card 1)"
    for (line = 0; line < 4096; line++) {
        printf "(line"
        for (place = 1; place <= 16; place++) {
            like = place > 12 ? place - 12 : place
            on = int(line / 2 ^ (12 - like)) % 2
            printf on ? " %d" : " (no %d)", place
        }
        print ")"
    }
    print "(visits 40959)"
    print "(end)"
}'
