import importlib
import a
importlib.reload(a)
