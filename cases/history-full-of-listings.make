# 1,000 names of 255 bytes; each listing keeps 287,000 bytes, so 117 of them pass 33,554,432, and the next one is refused.
echo "store 1 1 1 3 3"
seq -f 'c1 create /%0255.0f' 1 1000
yes 'c1 list /' | head -n 118
echo "c1 look /"
