# A store line and 65,536 comments.
echo "store 1 1 1 3 3"
yes '#' | head -n 65536
