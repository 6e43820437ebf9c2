# a good call at the start of a long line is not made
awk 'function repeat(text, times,  i) { for (i = 0; i < times; i++) printf "%s", text }
BEGIN { printf "(book 1)\n(flags 1 2)\n(exists 3)\n(forall 4)\n(rule 3 4 (no 1))\n(rule (no 3) (no 4) 2)\n(rule 1 2)\n(end)\n"; printf "(query 1 (no 2))"; repeat(" ", 70000); printf "\n(query 1 (no 2))\n" }'
