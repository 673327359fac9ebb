"""Lawful codes of tiles, chosen as no packer chooses them: any start, any lawful identifier, any lawful instruction."""
from .fits import plain_bytes

IDENTIFIER_BITS = {8: 3, 16: 4, 32: 5}
MOST_LOW_BITS = {8: 5, 16: 13, 32: 24}
RAW = {8: 7, 16: 15, 32: 26}
HIGHEST_FLAG = (1 << 24) - 1


def mapped(difference, width):
    """The difference modulo 2^width, taken as signed and mapped to a number from 0 on."""
    signed = (difference + (1 << (width - 1))) % (1 << width) - (1 << (width - 1))
    return 2 * signed if signed >= 0 else -2 * signed - 1


def number_bits(value, width):
    return format(value % (1 << width), f"0{width}b") if width else ""


def block_bits(rng, width, values):
    """A block of mapped differences by an identifier that can hold them, and does not need too many bits."""
    if all(it == 0 for it in values) and rng.random() < 0.6:
        return number_bits(0, IDENTIFIER_BITS[width])
    least = max(0, max(values).bit_length() - rng.randint(2, 6))
    if least > MOST_LOW_BITS[width] or rng.random() < 0.15:
        return number_bits(RAW[width], IDENTIFIER_BITS[width]) + "".join(number_bits(it, width) for it in values)
    low = rng.randint(least, min(MOST_LOW_BITS[width], least + 3))
    bits = number_bits(low + 1, IDENTIFIER_BITS[width])
    return bits + "".join("0" * (it >> low) + "1" + number_bits(it, low) for it in values)


def rice_code(rng, width, block, numbers):
    """A RICE_1 code of the numbers, filled to whole bytes at random."""
    start = numbers[0] if rng.random() < 0.7 else rng.randrange(1 << width)
    bits, before = number_bits(start, width), start
    differences = []
    for it in numbers:
        differences.append(mapped(it - before, width))
        before = it
    for at in range(0, len(differences), block):
        bits += block_bits(rng, width, differences[at : at + block])
    bits += "".join(rng.choice("01") for _ in range(-len(bits) % 8))
    return int(bits, 2).to_bytes(len(bits) // 8, "big")


def raise_to(rng, high, value):
    """Instructions that make the high value another one."""
    step = abs(value - high)
    if step > 4095 or rng.random() < 0.2:
        return [1 << 12 | value % 4096, value // 4096]
    return [(2 if value > high else 3) << 12 | step]


def pieces(rng, operation, count):
    """A count in pieces of at most 4095, sometimes in more of them than it takes."""
    made = []
    while count:
        piece = min(count, 4095 if rng.random() < 0.8 else rng.randint(1, 4095))
        made.append(operation << 12 | piece)
        count -= piece
    return made


def line_words(rng, numbers):
    """Instructions of a line list for the numbers."""
    made, high, at = [], 1, 0
    while at < len(numbers):
        value, end = numbers[at], at
        while end < len(numbers) and numbers[end] == value:
            end += 1
        if value == 0:
            if end < len(numbers) or rng.random() < 0.5:
                made += pieces(rng, 0, end - at)
        elif end - at == 1 and abs(value - high) <= 4095 and rng.random() < 0.4:
            made.append((6 if value >= high else 7) << 12 | abs(value - high))
            high = value
        else:
            if value != high:
                made += raise_to(rng, high, value)
                high = value
            one_by_one = rng.random() < 0.1
            made += [5 << 12 | 1] * (end - at) if one_by_one else pieces(rng, 4, end - at)
        at = end
    return made


def line_list(rng, numbers):
    """A PLIO_1 line list of the numbers, or None where one is outside its range."""
    if any(not 0 <= it <= HIGHEST_FLAG for it in numbers):
        return None
    made = line_words(rng, numbers)
    length = len(made) + 7
    head = [rng.choice((0, 9)), 7, 0x10000 - 100, length % 32768, length // 32768, rng.choice((0, 7)), 0]
    return plain_bytes(16, [it - 0x10000 if it > 0x7FFF else it for it in head + made])
