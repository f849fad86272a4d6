# A block of one byte more than the limit.
printf 'store 1 1 1 3 3\nc1 append /a '
head -c 65538 /dev/zero | tr '\0' 0
echo
