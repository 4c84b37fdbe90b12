print("egg begins")
import hen

try:
    print(hen.lays)
except AttributeError as error:
    print(str(error))
print("egg ends")
