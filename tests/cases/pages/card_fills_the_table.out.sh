# 4,096 lines of 16 flags on 187 pages: flags 1 to 12 in every way, off before on, and 13 to 16 as 1 to 4
awk 'BEGIN {
    for (page = 1; page <= 187; page++) {
        printf "CARD%67d\n", page
        for (line = 22 * (page - 1); line < 22 * page; line++) {
            flags = ""
            for (place = 1; place <= 16 && line < 4096; place++) {
                like = place > 12 ? place - 12 : place
                flags = flags int(line / 2 ^ (12 - like)) % 2
            }
            printf "%-71s\n", line < 4096 ? sprintf("%5d  %s", line + 1, flags) : ""
        }
        printf "%-71s\n", ""
    }
}'
