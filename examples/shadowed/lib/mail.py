def post(text):
    return "sent: " + text
