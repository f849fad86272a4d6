# A client with room for one entry more stops after the one transaction of its step: it does not find its history full before it
# asks for another. Its other command ends in its second step, for want of room.
echo "store 1 1 1 3 3"
for client in c1 c2; do
    echo "$client create /$client"
    yes "$client look /" | head -n 21843
    echo "$client begin create /x"
done
echo "c1 step 1"
echo "c2 step 2"
echo "c1 stop"
