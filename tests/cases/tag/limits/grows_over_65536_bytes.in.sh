# 4,000 rules, which would have tags of up to 11 bytes
awk 'BEGIN { print "(book 1)\n(flags 1)"; for (n = 0; n < 4000; n++) print "(rule (no 1))"; print "(end)" }'
