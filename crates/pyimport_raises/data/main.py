print("main")
import missing
print("after")
