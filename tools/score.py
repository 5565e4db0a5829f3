#!/usr/bin/env python3
"""Turns a readable text of a score, and of a question, into a book and a slip.

    score.py book  < text > book          the score alone, as a book
    score.py slip  < text > slip          the question alone, as a slip
    score.py both  < text > book-and-slip the score and then the question

The text has lines of words; an empty line and what follows a '#' do not count:

    kind 1                                1 pitch, 2 pitch class, 3 stroke
    track 60 62 64 65 r r                 one line a track, all of one length; r is a rest
    track r r 48 50 72 74
    limit 0                               of the question: columns between two pieces
    mode 1                                0 untransposed, 1 any transposition
    price 2                               1 changes, 2 changes and then silence
    query 50 52 53 60

It is written from the description of the formats in docs/formats.md and shares nothing with the program.
"""
import sys

REST = 255
PAYLOAD = 502


def block(letter, kind, number, payload):
    body = bytes([ord(letter), kind]) + number.to_bytes(2, 'big') + len(payload).to_bytes(2, 'big') + bytes(payload)
    body += bytes(508 - len(body))
    check = sum((i + 1) * b for i, b in enumerate(body))
    return body + check.to_bytes(4, 'big')


def book(kind, tracks):
    columns = list(zip(*tracks))
    out = block('H', kind, 0, bytes([len(tracks)]) + len(columns).to_bytes(2, 'big'))
    fit = PAYLOAD // len(tracks)
    for number, at in enumerate(range(0, len(columns), fit), 1):
        out += block('C', kind, number, [s for column in columns[at:at + fit] for s in column])
    return out


def slip(kind, limit, mode, price, query):
    return block('Q', kind, 0, limit.to_bytes(2, 'big') + bytes([mode, price, len(query)]) + bytes(query))


def symbols(words):
    return [REST if w == 'r' else int(w) for w in words]


def read(lines):
    score = {'kind': 1, 'tracks': [], 'limit': 0, 'mode': 0, 'price': 1, 'query': []}
    for line in lines:
        words = line.split('#')[0].split()
        if not words:
            continue
        if words[0] == 'track':
            score['tracks'].append(symbols(words[1:]))
        elif words[0] == 'query':
            score['query'] = symbols(words[1:])
        else:
            score[words[0]] = int(words[1])
    return score


def main():
    s = read(sys.stdin)
    out = b''
    if sys.argv[1] in ('book', 'both'):
        out += book(s['kind'], s['tracks'])
    if sys.argv[1] in ('slip', 'both'):
        out += slip(s['kind'], s['limit'], s['mode'], s['price'], s['query'])
    sys.stdout.buffer.write(out)


if __name__ == '__main__':
    main()
