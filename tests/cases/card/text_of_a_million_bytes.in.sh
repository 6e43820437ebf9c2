# a million bytes
awk 'function repeat(text, times,  i) { for (i = 0; i < times; i++) printf "%s", text }
BEGIN { repeat("(rule 1)\n", 111111); printf "x" }'
