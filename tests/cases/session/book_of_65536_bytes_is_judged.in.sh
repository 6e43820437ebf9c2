# the book ends at byte 65,536; the calls after it are not answered
awk 'function repeat(text, times,  i) { for (i = 0; i < times; i++) printf "%s", text }
BEGIN { printf "(book 1)\n(flags 1)\n(rule"; repeat(" 1", 32752); printf ")\n(end)\n" }'
printf "(forget)\n(query)\n"
