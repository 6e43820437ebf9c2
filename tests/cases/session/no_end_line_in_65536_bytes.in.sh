# the input ends at byte 65,536 without a line (end)
awk 'function repeat(text, times,  i) { for (i = 0; i < times; i++) printf "%s", text }
BEGIN { printf "(book 1)\n(flags 1 1)\n"; repeat("x", 65515) }'
