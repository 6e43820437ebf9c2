# 65,536 bytes: a rule with far too many literals is 7
awk 'function repeat(text, times,  i) { for (i = 0; i < times; i++) printf "%s", text }
BEGIN { printf "(book 1)\n(flags 1)\n(rule"; repeat(" 1", 32752); printf ")\n(end)\n" }'
