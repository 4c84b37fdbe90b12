import prices


def total(net):
    return net + prices.tax_of(net)


rate = 20
