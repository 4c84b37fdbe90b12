print("local of the application")
