# a text of 65,536 bytes is judged, one of 65,537 is 9, and the input goes on behind its line (end)
awk 'function repeat(s, n) { while (n-- > 0) printf "%s", s }
BEGIN { printf "(day 100)\n(place 1)\n"; repeat("x", 65529); printf "\n(end)\n"; printf "(place 2)\n"; repeat("x", 65530); printf "\n(end)\n"; printf "(place 3)\n(book 1)\n(flags 1)\n"; repeat("(rule 1)\n", 8000); printf "(end)\n(place 4)\n(book 1)\n(flags 1)\n(end)\n(at 2 (card))\n(at 4 (card))\n(shares)\n" }'
