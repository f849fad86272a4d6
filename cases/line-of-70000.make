# A comment of 70,000 bytes.
echo "store 1 1 1 3 3"
printf '#%069999d\n' 0
