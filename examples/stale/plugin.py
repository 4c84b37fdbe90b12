works = True
