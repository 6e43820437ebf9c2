# 65,536 bytes: the second 1 is 4
awk 'function repeat(text, times,  i) { for (i = 0; i < times; i++) printf "%s", text }
BEGIN { printf "(book 1)\n(flags"; repeat(" 1", 32755); printf " 10)\n(end)\n" }'
