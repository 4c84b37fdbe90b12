import b
print("a")
