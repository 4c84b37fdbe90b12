import a
print("b")
