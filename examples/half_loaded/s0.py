import table

print("s0:", table.rows)
