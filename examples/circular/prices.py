from shop import rate


def tax_of(net):
    return net * rate // 100
