# The paper's sentences on words and arithmetic in Python's unbounded integers; shares nothing with crates/.
# Called: imported by tests/vectors/make; it does nothing when run.
# Paper: "What a programmer sees", "Clock by clock" (multiplier and divider), "Where calls are turned down" (3, 10); C of ADD and SUB is
# that of A2 of the change requests.
MASK = 2**32 - 1


def signed(word):
    return word - 2**32 if word >= 2**31 else word


def rotate_right(b, places):
    return (b >> places | b << (32 - places)) & MASK


def multiplier(a, b, k):
    """The 64-bit register after k steps, k = 0 to 32, as a word."""
    if k == 32:
        return signed(a) * signed(b) % 2**64
    return (signed(b) * (a % 2**k) * 2 ** (32 - k) + a // 2**k) % 2**64


def divider(a, b, k):
    """Remainder and quotient register after k steps, k = 0 to 32."""
    if signed(a) <= 0:
        return 0, 0
    size = abs(signed(b))
    t = size // 2 ** (32 - k)
    return t % a, size % 2 ** (32 - k) * 2**k + t // a


def divide(a, b):
    """R.d and H of DIV."""
    if signed(a) <= 0:
        return 0, b
    return signed(b) // a & MASK, signed(b) % a


def operation(op, b, a, carry, overflow):
    """R.d, H (None if the operation does not change it), N, Z, C, V after an operation, given C and V before it."""
    exact = {2: signed(b) + signed(a), 3: signed(b) - signed(a)}.get(op)
    high = None
    if op == 8:
        product = multiplier(a, b, 32)
        result, high = product & MASK, product >> 32
    elif op == 9:
        result, high = divide(a, b)
    else:
        result = {0: a, 1: a ^ MASK, 4: b & a, 5: b & (a ^ MASK), 6: b | a, 7: b ^ a, 10: rotate_right(b, a % 32)}.get(op)
    if exact is not None:
        result = exact & MASK
        carry = (b + a) // 2**32 if op == 2 else int(b >= a)  # "both without sign": b and a are 0 to 2^32-1
        overflow = int(not -(2**31) <= exact < 2**31)
    if op == 10:
        carry = result % 2
    return result, high, int(result >= 2**31), int(result == 0), carry, overflow


def condition(k, flags):
    n, z, c, v = (bool(flags & bit) for bit in (8, 4, 2, 1))
    return [z, not z, c, not c, n, not n, v, not v, c and not z, not (c and not z), n == v, n != v,
            n == v and not z, not (n == v and not z), True, False][k]


def address(s, register, offset):
    return ((0 if s == 7 else register) + offset) % 65536


def place(at, length):
    return f'device {at - 0xFFC0}' if at >= 0xFFC0 else f'memory {at % length}'


# The base charges: the clocks of each operation in its cheapest row of the clock table.
CHARGES = [1] * 8 + [33, 33, 1, 1, 2, 1, 1, 2]

# Forms: 0 register, 1 literal, 2 MOV H, 3 status, 4 jump, 5 jump and link, 6 RTI, 7 LD, 8 ST, 9 branch, 10 call.
WIDTHS = [(11, 8, 8), (11, 8, 1024), (8,), (16,), (8,), (8, 8), (8,), (8, 8, 256), (8, 8, 256), (16, 1024), (4096,)]


def decode(w):
    """The form and its fields, or None for a word above 3FFFFH."""
    if w > 0x3FFFF:
        return None
    op, d, s, register = w >> 14, w >> 11 & 7, w & 7, w >> 10 & 1
    if op <= 10:
        if op == 0 and register and w >> 3 & 1:
            return 2, (d,)
        return (0, (op, d, s)) if register else (1, (op, d, w & 1023))
    if op == 11:
        if not register:
            return 3, (w & 15,)
        return [(4, (s,)), (6, (s,)), (5, (d, s)), (6, (s,))][w >> 8 & 3]
    if op in (12, 13):
        return op - 5, (d, s, w >> 3 & 255)
    return (9, (w >> 10 & 15, w & 1023)) if op == 14 else (10, (w & 4095,))


def encode(form, fields):
    """The word, or None for a field outside its width."""
    if any(x >= width for x, width in zip(fields, WIDTHS[form])):
        return None
    place = {0: (14, 11, 0), 1: (14, 11, 0), 2: (11,), 5: (11, 0), 7: (11, 0, 3), 8: (11, 0, 3), 9: (10, 0)}.get(form, (0,))
    fixed = [1 << 10, 0, 1 << 10 | 1 << 3, 11 << 14, 11 << 14 | 1 << 10, 11 << 14 | 1 << 10 | 1 << 9,
             11 << 14 | 1 << 10 | 1 << 8, 12 << 14, 13 << 14, 14 << 14, 15 << 14][form]
    return fixed + sum(x << p for x, p in zip(fields, place))


def instructions():
    """How many instructions there are: the products of the widths, form by form."""
    total = 0
    for widths in WIDTHS:
        product = 1
        for width in widths:
            product *= width
        total += product
    return total
