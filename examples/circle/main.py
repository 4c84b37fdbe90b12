# hen imports egg, and egg imports hen.
import hen

print(hen.lays)
