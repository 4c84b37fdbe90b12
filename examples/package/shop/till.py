from . import apple

print("till is open")


def total(count):
    return count * apple
