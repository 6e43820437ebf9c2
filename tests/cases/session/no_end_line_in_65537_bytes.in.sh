# the same with one byte more
awk 'function repeat(text, times,  i) { for (i = 0; i < times; i++) printf "%s", text }
BEGIN { printf "(book 1)\n(flags 1 1)\n"; repeat("x", 65516) }'
