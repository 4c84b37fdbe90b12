n = 0
while n < 20:
    n += 1
rows = n
