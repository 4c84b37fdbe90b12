import shop

print(shop.total(100))
