# A module that fails is forgotten: the next import runs it again.
import switch

try:
    import lamp
except ValueError as error:
    print("lamp: " + str(error))

switch.on = True
import lamp
import lamp
print("lit: " + str(lamp.lit))
