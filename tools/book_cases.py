#!/usr/bin/env python3
"""Makes the table that the program book_table runs, and what it should print.

    book_cases.py crates/book_table       writes stdin and stdout there

Each case says by the rules of docs/refusals.md what it should be told: those words are written here by hand. A reader
of books and slips in this file, written from docs/formats.md alone, is held to them too, so that a slip of the pen in
either is found before the program is run.
"""
import sys

from score import block, book, slip

KNOWN = {1: 128, 2: 12, 3: 64}
cases = []


def refused(number, place):
    return f'refused {number} at {place}'


def block_fault(b, n):
    body = b[:508]
    if sum((i + 1) * x for i, x in enumerate(body)) != int.from_bytes(b[508:], 'big'):
        return refused(2, n)
    if b[0] not in b'HCQ' or b[1] not in KNOWN:
        return refused(3, n)
    length = int.from_bytes(b[4:6], 'big')
    if length > 502 or any(body[6 + length:]):
        return refused(4, n)
    return None


def readable(x, kind):
    return x < KNOWN[kind] or x == 255


def read_book(data, kind=1):
    if len(data) == 0 or len(data) % 512:
        return refused(1, len(data))
    tracks = columns = done = None
    blocks = len(data) // 512
    for n in range(blocks):
        b = data[512 * n:512 * n + 512]
        fault = block_fault(b, n)
        if fault:
            return fault
        length = int.from_bytes(b[4:6], 'big')
        due = b'H' if n == 0 else b'C' if done < columns else b''
        if b[0:1] != due:
            return refused(5, n)
        if int.from_bytes(b[2:4], 'big') != n or b[1] != kind:
            return refused(6, n)
        if n == 0:
            tracks, columns, done = b[6], int.from_bytes(b[7:9], 'big'), 0
            if length != 3 or not 1 <= tracks <= 16 or columns > 4096:
                return refused(7, n)
            continue
        count = min(502 // tracks, columns - done)
        if length != count * tracks:
            return refused(8, n)
        for i, x in enumerate(b[6:6 + length]):
            if not readable(x, kind):
                return refused(9, 512 * n + 6 + i)
        done += count
    if done < columns:
        return refused(10, blocks)
    return f'tracks {tracks} columns {columns}, written again: true, a byte too short: refused 23 at {len(data)}'


def read_slip(data, kind=1):
    if len(data) != 512:
        return refused(1, len(data))
    fault = block_fault(data, 0)
    if fault:
        return fault
    if data[0:1] != b'Q':
        return refused(5, 0)
    if int.from_bytes(data[2:4], 'big') != 0 or data[1] != kind:
        return refused(6, 0)
    limit, mode, price, notes = int.from_bytes(data[6:8], 'big'), data[8], data[9], data[10]
    if int.from_bytes(data[4:6], 'big') != 5 + notes or limit > 4095 or mode > 1 or not 1 <= price <= 2 or not 1 <= notes <= 64:
        return refused(11, 0)
    for i, x in enumerate(data[11:11 + notes]):
        if not readable(x, kind):
            return refused(9, 11 + i)
    return f'limit {limit} mode {mode} price {price} notes {notes}, written again: true'


def case(what, label, data, expected):
    own = read_book(data) if what == 'b' else read_slip(data)
    assert own == expected, (label, own, expected)
    cases.append((what, label, bytes(data), expected))


def good(data, tracks, columns):
    return f'tracks {tracks} columns {columns}, written again: true, a byte too short: refused 23 at {len(data)}'


def sealed(body):
    """The first 508 bytes of a block with the check that fits them."""
    assert len(body) == 508
    return bytes(body) + sum((i + 1) * x for i, x in enumerate(body)).to_bytes(4, 'big')


def with_byte(data, at, value):
    """The data with one byte of a block's first 508 changed, and the block's check made to fit again."""
    n = at // 512
    b = bytearray(data[512 * n:512 * n + 508])
    b[at - 512 * n] = value
    return data[:512 * n] + sealed(b) + data[512 * n + 512:]


def books():
    rest = 255
    two = book(1, [[60, 62, 64, 65, rest, rest], [rest, rest, 48, 50, 72, 74]])
    case('b', 'two tracks of six columns', two, good(two, 2, 6))
    for tracks, columns in [(1, 0), (16, 0), (1, 502), (1, 503), (16, 31), (16, 32), (3, 335), (16, 4096), (7, 500)]:
        b = book(1, [[(7 * t + c) % 128 if (t + c) % 5 else rest for c in range(columns)] for t in range(tracks)]) if columns else block('H', 1, 0, bytes([tracks, 0, 0]))
        case('b', f'{tracks} tracks of {columns} columns', b, good(b, tracks, columns))
    long = book(1, [[c % 128 for c in range(1100)]])
    case('b', 'nothing', b'', refused(1, 0))
    case('b', '511 bytes', two[:511], refused(1, 511))
    case('b', '513 bytes', two[:513], refused(1, 513))
    case('b', 'check one too high in block 1', two[:1023] + bytes([(two[1023] + 1) % 256]), refused(2, 1))
    case('b', 'letter X', with_byte(two, 0, ord('X')), refused(3, 0))
    case('b', 'kind 0', with_byte(two, 1, 0), refused(3, 0))
    case('b', 'kind 4', with_byte(two, 1, 4), refused(3, 0))
    case('b', 'kind 4 in block 1', with_byte(two, 513, 4), refused(3, 1))
    case('b', 'payload length 503', with_byte(with_byte(two, 516, 1), 517, 247), refused(4, 1))
    case('b', 'a byte after the payload', with_byte(two, 512 + 18, 1), refused(4, 1))
    case('b', 'a byte before the check', with_byte(two, 507, 9), refused(4, 0))
    case('b', 'a slip for a title', block('Q', 1, 0, [0, 0, 0, 1, 1, 60]), refused(5, 0))
    case('b', 'columns for a title', block('C', 1, 0, [60]), refused(5, 0))
    case('b', 'two titles', two[:512] + block('H', 1, 1, [2, 0, 6]), refused(5, 1))
    case('b', 'a slip for columns', two[:512] + block('Q', 1, 1, [0, 0, 0, 1, 1, 60]), refused(5, 1))
    case('b', 'an extra column block', two + block('C', 1, 2, [60, 60]), refused(5, 2))
    case('b', 'columns after a score of none', block('H', 1, 0, [1, 0, 0]) + block('C', 1, 1, [60]), refused(5, 1))
    case('b', 'title numbered 1', block('H', 1, 1, [2, 0, 6]), refused(6, 0))
    case('b', 'pitch classes', block('H', 2, 0, [2, 0, 6]), refused(6, 0))
    case('b', 'strokes in block 1', two[:512] + block('C', 3, 1, [60] * 12), refused(6, 1))
    case('b', 'blocks out of order', long[:512] + long[1024:1536] + long[512:1024] + long[1536:], refused(6, 1))
    case('b', 'title of 2 bytes', block('H', 1, 0, [2, 0]), refused(7, 0))
    case('b', 'title of 4 bytes', block('H', 1, 0, [2, 0, 6, 0]), refused(7, 0))
    case('b', '0 tracks', block('H', 1, 0, [0, 0, 6]), refused(7, 0))
    case('b', '17 tracks', block('H', 1, 0, [17, 0, 6]), refused(7, 0))
    case('b', '4,097 columns', block('H', 1, 0, [1, 16, 1]), refused(7, 0))
    case('b', 'one symbol too few', two[:512] + block('C', 1, 1, [60] * 11), refused(8, 1))
    case('b', 'one column too many', two[:512] + block('C', 1, 1, [60] * 14), refused(8, 1))
    case('b', 'a first block not full', long[:512] + block('C', 1, 1, [60] * 501), refused(8, 1))
    case('b', 'unreadable in the first place', with_byte(two, 518, 128), refused(9, 518))
    case('b', 'unreadable in the last place', with_byte(two, 529, 254), refused(9, 529))
    case('b', 'two unreadable', with_byte(with_byte(two, 520, 200), 525, 200), refused(9, 520))
    case('b', 'unreadable in the last block', with_byte(long, 512 * 3 + 6 + 95, 129), refused(9, 512 * 3 + 6 + 95))
    case('b', 'a title alone', two[:512], refused(10, 1))
    case('b', 'the last block missing', long[:1536], refused(10, 3))
    case('b', 'check before kind', with_byte(two, 1, 9)[:511] + b'\x00', refused(2, 0))
    case('b', 'kind before padding', with_byte(with_byte(two, 1, 9), 507, 1), refused(3, 0))
    case('b', 'padding before letter', with_byte(with_byte(two, 0, 67), 507, 1), refused(4, 0))
    case('b', 'letter before number', block('C', 1, 5, [60]), refused(5, 0))
    case('b', 'number before shape', block('H', 1, 5, [0, 0, 0]), refused(6, 0))
    case('b', 'number before length', two[:512] + block('C', 1, 2, [60]), refused(6, 1))
    case('b', 'length before symbols', two[:512] + block('C', 1, 1, [200] * 11), refused(8, 1))
    case('b', 'symbols before the end', long[:1024][:512] + with_byte(long, 518, 200)[512:1024], refused(9, 518))
    case('b', 'an early block before a later', with_byte(with_byte(long, 518, 200), 1024 + 1, 7), refused(9, 518))


def slips():
    q = slip(1, 0, 1, 2, [50, 52, 53, 60])
    case('s', 'a slip', q, 'limit 0 mode 1 price 2 notes 4, written again: true')
    case('s', 'one note, the widest limit', slip(1, 4095, 0, 1, [255]), 'limit 4095 mode 0 price 1 notes 1, written again: true')
    case('s', '64 notes', slip(1, 7, 0, 1, list(range(64))), 'limit 7 mode 0 price 1 notes 64, written again: true')
    case('s', 'no slip', b'', refused(1, 0))
    case('s', 'two blocks', q + q, refused(1, 1024))
    case('s', 'check differs', q[:511] + bytes([q[511] ^ 1]), refused(2, 0))
    case('s', 'kind 9', slip(9, 0, 1, 2, [50]), refused(3, 0))
    case('s', 'a byte after the query', with_byte(q, 15, 1), refused(4, 0))
    case('s', 'a title', block('H', 1, 0, [2, 0, 6]), refused(5, 0))
    case('s', 'numbered 1', block('Q', 1, 1, [0, 0, 0, 1, 1, 60]), refused(6, 0))
    case('s', 'another kind', slip(2, 0, 1, 2, [5]), refused(6, 0))
    case('s', 'limit 4,096', slip(1, 4096, 0, 1, [60]), refused(11, 0))
    case('s', 'mode 2', slip(1, 0, 2, 1, [60]), refused(11, 0))
    case('s', 'price 0', slip(1, 0, 0, 0, [60]), refused(11, 0))
    case('s', 'price 3', slip(1, 0, 0, 3, [60]), refused(11, 0))
    case('s', 'no note', slip(1, 0, 0, 1, []), refused(11, 0))
    case('s', '65 notes', slip(1, 0, 0, 1, [60] * 65), refused(11, 0))
    case('s', 'a payload of 4 bytes', block('Q', 1, 0, [0, 0, 0, 1]), refused(11, 0))
    case('s', 'a payload too long', block('Q', 1, 0, [0, 0, 0, 1, 1, 60, 61]), refused(11, 0))
    case('s', 'unreadable first note', slip(1, 0, 0, 1, [128, 60]), refused(9, 11))
    case('s', 'unreadable last note', slip(1, 0, 0, 1, [60] * 63 + [254]), refused(9, 74))
    case('s', 'letter before kind', block('C', 2, 0, [60]), refused(5, 0))
    case('s', 'field before symbol', slip(1, 4096, 0, 1, [200]), refused(11, 0))


def main():
    books()
    slips()
    folder = sys.argv[1]
    with open(f'{folder}/stdin', 'wb') as f:
        for what, label, data, _ in cases:
            f.write(what.encode() + bytes([len(label)]) + len(data).to_bytes(3, 'big') + label.encode() + data)
    with open(f'{folder}/stdout', 'w') as f:
        for _, label, _, expected in cases:
            f.write(f'{label}: {expected}\n')
        damages = 3 * len(cases[0][2])
        f.write(f'bytes damaged one at a time: {damages}, refused by 2: {damages}\n')
    print(f'{len(cases)} cases')


if __name__ == '__main__':
    main()
