import price
print("to pay", price.apple)
