# the fault on line 1 decides in 65,536 bytes
awk 'function repeat(text, times,  i) { for (i = 0; i < times; i++) printf "%s", text }
BEGIN { printf "(book 3)\n"; repeat("x", 65527) }'
