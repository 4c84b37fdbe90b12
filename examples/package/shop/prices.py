apple = 2
print("prices are known")
