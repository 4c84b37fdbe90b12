import shop.till

print(shop.till.total(3))
