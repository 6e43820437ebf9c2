printf '(book 2)\n(flags)\n'; head -c 65520 /dev/zero | tr '\0' '1'
