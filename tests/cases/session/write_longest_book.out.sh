book=$(sh "$(dirname "$0")/write_longest_book.in.sh" | sed '/^(end)$/q')
printf '%s\n%s\n(refused 31 301)\n' "$book" "$book"
