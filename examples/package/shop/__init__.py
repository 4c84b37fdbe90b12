from .prices import apple

print("shop is open")
