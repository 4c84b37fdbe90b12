import importlib


def tries():
    try:
        import plugin

        print("plugin runs:", plugin.works)
        return True
    except ModuleNotFoundError as error:
        print(error)
        return False


def waits():
    n = 0
    while n < 30000:
        n += 1


tries()
waits()
print("now plugin.py is there")
tries()
importlib.invalidate_caches()
print("all listings are dropped")
tries()
