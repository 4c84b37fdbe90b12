import sys

while "table" not in sys.modules:
    pass
print("s1:", sys.modules["table"].rows)
