# 255 rules in the book, and more by calls
awk 'BEGIN { print "(book 1)\n(flags 1 2)"; for (n = 0; n < 255; n++) print "(rule 1 2)"; print "(end)"; for (n = 0; n < 46; n++) print "(rule 1 (no 2))"; print "(card)" }'
