yes "#" | head -n 65536
