import switch

print("lamp begins")
if not switch.on:
    raise ValueError("no current")
lit = True
