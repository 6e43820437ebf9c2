# 65,536 bytes and no line
awk 'function repeat(text, times,  i) { for (i = 0; i < times; i++) printf "%s", text }
BEGIN { repeat("x", 65536) }'
