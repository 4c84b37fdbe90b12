address = "me@example.org"
