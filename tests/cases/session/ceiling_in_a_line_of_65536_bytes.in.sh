# a query of 65,536 bytes that ends with a ceiling is 8; one byte more is 1
awk 'function repeat(text, times,  i) { for (i = 0; i < times; i++) printf "%s", text }
BEGIN { printf "(book 1)\n(flags 1 2)\n(exists 3)\n(forall 4)\n(rule 3 4 (no 1))\n(rule (no 3) (no 4) 2)\n(rule 1 2)\n(end)\n"; printf "(query 10"; repeat(" 1", 32757); printf " (ceiling 0))\n"; printf "(query"; repeat(" 1", 32759); printf " (ceiling 0))\n"; printf "(query 2 (no 1) (ceiling 0))\n" }'
