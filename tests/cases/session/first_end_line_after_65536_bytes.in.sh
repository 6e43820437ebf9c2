# a good line (end) comes too late
awk 'function repeat(text, times,  i) { for (i = 0; i < times; i++) printf "%s", text }
BEGIN { printf "(book 1)\n(flags 1)\n"; repeat("(rule 1)\n", 8000); printf "(end)\n(query)\n" }'
