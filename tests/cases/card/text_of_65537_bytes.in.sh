# 65,537 bytes of the same text
awk 'function repeat(text, times,  i) { for (i = 0; i < times; i++) printf "%s", text }
BEGIN { printf "(book 1)\n(flags 1)\n(rule 10"; repeat(" 1", 32751); printf ")\n(end)\n" }'
