# 9 comes before the empty line 1
awk 'function repeat(text, times,  i) { for (i = 0; i < times; i++) printf "%s", text }
BEGIN { repeat("\n", 65537) }'
