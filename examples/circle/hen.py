print("hen begins")
import egg

lays = "an egg"
print("hen ends")
