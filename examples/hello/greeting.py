print("hello from greeting")
