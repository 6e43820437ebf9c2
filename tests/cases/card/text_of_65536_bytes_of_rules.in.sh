# 65,536 bytes: rule 256 is on line 258
awk 'function repeat(text, times,  i) { for (i = 0; i < times; i++) printf "%s", text }
BEGIN { printf "(book 1)\n(flags 1 2)\n(rule 1 (no 2))\n"; repeat("(rule 1 2)\n", 5953); printf "(rule 10)\n(end)\n" }'
