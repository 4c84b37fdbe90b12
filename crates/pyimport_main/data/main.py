import a
print("main")
