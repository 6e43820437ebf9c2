# a line of 65,536 bytes is read as a call at its place; longer ones are skipped to their end and are 1
awk 'function repeat(s, n) { while (n-- > 0) printf "%s", s }
BEGIN { printf "(day 100)\n(place 1)\n(book 1)\n(flags 1)\n(rule 1)\n(end)\n"
    printf "(at 1 (query"; repeat(" 1", 32761); printf "))\n"
    printf "(at 1 (query"; repeat(" 1", 32760); printf " 10))\n"
    printf "(at 1 (query"; repeat(" 1", 32761); printf " 1))\n"
    printf "(at 1 (card))\n(shares)\n" }'
