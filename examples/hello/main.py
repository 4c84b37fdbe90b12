import greeting
print("hello from main")
