import mail


def send(text):
    return mail.post(text)
