let end = 3
