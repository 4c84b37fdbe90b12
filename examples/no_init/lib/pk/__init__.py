print("pk of the library")
