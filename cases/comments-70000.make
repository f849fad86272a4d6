yes "#" | head -n 70000
