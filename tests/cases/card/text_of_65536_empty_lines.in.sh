# 65,536 empty lines
awk 'function repeat(text, times,  i) { for (i = 0; i < times; i++) printf "%s", text }
BEGIN { repeat("\n", 65536) }'
