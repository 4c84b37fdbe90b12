apple = 30
