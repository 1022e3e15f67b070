#!/usr/bin/env python3
"""Writes crates/listings/stdin and stdout: a table of recipes, and the listing of each by the rules of docs/.

A reading of the rules of its own, in another language, to hold the program's against.
"""
NAMES = 'frame negate erode dilate open close meet join mean-low mean-high select-low select-high'.split()
KIND = {name: number for number, name in enumerate(NAMES, 1)}
LOOKING = {'erode', 'dilate', 'open', 'close', 'select-low', 'select-high'}
FULL, CROSS, RIGHT, WIDE = 0x739C0, 0x23880, 0x2000, 0x1FFFFFF  # 3 × 3; plus; one to the right, no centre; 5 × 5


def reach_of(element):
    return max(max(abs(b % 5 - 2), abs(b // 5 - 2)) for b in range(25) if element >> b & 1)


def after(name, element, stack):
    """The stack of (reach, marks, chain) after a step; a chain is of any element, of one, or None."""
    if name == 'frame':
        return stack + [(0, set('BDKW'), 'any')]
    reach, marks, chain = stack[-1]
    if name in ('meet', 'join') or name.startswith('mean'):
        reach2, marks2, _ = stack[-2]
        either = {'meet': {'B'}, 'join': {'D'}}.get(name, set()) & (marks | marks2)
        return stack[:-2] + [(max(reach, reach2), marks & marks2 | either, None)]
    if name == 'negate':
        kept = {{'K': 'T', 'T': 'K'}[m] for m in marks & set('KT')}
        return stack[:-1] + [(reach, kept, None)]
    far = reach_of(element)
    if name.startswith('select'):
        return stack[:-1] + [(reach + 2 * far, marks & {'W'}, None)]
    kept = set('KT') | {'B' if name in ('erode', 'open') else 'D', 'W'}
    if not element >> 12 & 1:
        kept -= {'W'} if name in ('open', 'close') else set('BDW')
    if name in ('open', 'close'):
        chain = element if chain in ('any', element) else None
        return stack[:-1] + [(reach + 2 * far, marks & kept, chain)]
    return stack[:-1] + [(reach + far, marks & kept, None)]


def letters(marks, chain):
    return ''.join(m for m in 'BDKTSW' if m in marks or m == 'S' and chain is not None) or '-'


def listing(data, ranked):
    if not 8 <= len(data) <= 512 or len(data) % 8:
        return ['refused 11']
    stack, planes, lines = [], 0, []
    for i in range(len(data) // 8):
        record = data[8 * i:8 * i + 8]
        kind, element = record[0], int.from_bytes(record[1:5], 'little')
        if not 1 <= kind <= 12:
            return [f'refused 12 record {i}']
        name = NAMES[kind - 1]
        if any(record[5:]) or name not in LOOKING and element:
            return [f'refused 13 record {i}']
        if name in LOOKING and not 0 < element < 1 << 25:
            return [f'refused 14 record {i}']
        if name.startswith(('mean', 'select')) and not ranked:
            return [f'refused 15 record {i}']
        two = name in ('meet', 'join', 'mean-low', 'mean-high')
        if len(stack) < (0 if name == 'frame' else 2 if two else 1):
            return [f'refused 16 record {i}']
        if name == 'frame' and len(stack) == 4:
            return [f'refused 17 record {i}']
        stack = after(name, element, stack)
        planes = max(planes, len(stack))
        reach, marks, chain = stack[-1]
        lines.append(f'{i} {name} {len(stack)} {reach} {letters(marks, chain)}')
    if len(stack) > 1:
        return ['refused 18']
    return lines + [f'admitted planes {planes} reach {reach} marks {letters(marks, chain)}']


def record(step):
    name, element = step if isinstance(step, tuple) else (step, 0)
    return bytes([KIND[name]]) + element.to_bytes(4, 'little') + bytes(3)


def recipe(*steps):
    return b''.join(map(record, steps))


def table():
    yield '# lengths: 0, 7, 8, 512, 513, 520, 1024'
    frame, rest = recipe('frame'), recipe(*['negate'] * 63)
    for data in (b'', frame[:7], frame, frame + rest, frame + rest + b'\0', frame + rest + recipe('negate'), bytes(1024)):
        yield data, True
    yield '# the longest reach: a frame and 63 steps that reach 4 further'
    yield recipe('frame', *[('open', WIDE)] * 63), True
    yield '# kinds 0, 13 and 255; an unknown kind comes before its other bytes'
    for kind in (0, 13, 255):
        yield recipe('frame') + bytes([kind]) + bytes(7), True
    yield frame + b'\x0d' + b'\xff' * 7, True
    yield '# a byte that is to be zero: each of the last three, each of an element that is not there, before a bad element'
    for place in (5, 6, 7):
        bad = bytearray(record(('erode', FULL)))
        bad[place] = 1
        yield frame + bytes(bad), True
    for place in (1, 2, 3, 4):
        bad = bytearray(record('negate'))
        bad[place] = 128
        yield frame + bytes(bad), True
    yield frame + bytes([3, 0, 0, 0, 0, 1, 0, 0]), True
    yield '# elements: empty, bit 25, bit 31; then bit 24 alone, bit 0 alone and all 25 bits'
    for element in (0, 1 << 25, 1 << 31, 1 << 24, 1, WIDE):
        yield frame + b'\x05' + element.to_bytes(4, 'little') + bytes(3), True
    yield '# every step with an element refuses an empty one, on an empty stack too'
    for name in sorted(LOOKING, key=KIND.get):
        yield recipe((name, 0)), True
    yield '# levels without ranks: means and selections are refused, on an empty stack too; the others are not'
    for name in ('mean-low', 'mean-high'):
        yield recipe(name), False
        yield recipe('frame', 'frame', name), False
    for name in ('select-low', 'select-high'):
        yield recipe('frame', (name, FULL)), False
    yield recipe('frame', 'frame', 'meet', 'frame', 'join', 'negate', ('erode', FULL), ('dilate', FULL), ('open', FULL), ('close', FULL)), False
    yield '# too few planes: each step on an empty stack, each merge on one plane; a record is checked whole before the next'
    for name in NAMES[1:]:
        yield recipe((name, FULL) if name in LOOKING else name), True
    for name in ('meet', 'join', 'mean-low', 'mean-high'):
        yield recipe('frame', name), True
    yield recipe('negate') + bytes(8), True
    yield '# four frames, and a fifth; planes left over'
    yield recipe('frame', 'frame', 'frame', 'frame', 'meet', 'meet', 'meet'), True
    yield recipe('frame', 'frame', 'frame', 'frame'), True
    yield recipe('frame', 'frame', 'frame', 'frame', 'frame'), True
    yield recipe('frame', 'frame'), True
    bases = [('frame',), ('frame', 'negate'), ('frame', ('open', FULL)), ('frame', ('close', FULL))]
    for name in NAMES:
        if name in LOOKING:
            for element, what in ((FULL, 'the full element'), (CROSS, 'another element'), (RIGHT, 'an element without its centre')):
                yield f'# {name} by {what}'
                for base in bases:
                    yield recipe(*base, (name, element)), True
        elif name == 'negate':
            yield '# negate'
            for base in bases + [('frame', ('select-low', FULL))]:
                yield recipe(*base, name), True
        elif name != 'frame':
            yield f'# {name} of two planes'
            pairs = [(0, 0), (1, 1), (2, 3), (3, 2), (2, 2), (3, 3), (0, 1), (1, 0)]
            for low, high in pairs:
                yield recipe(*bases[low], *bases[high], name), True
    yield '# no mark at all'
    yield recipe('frame', 'negate', ('select-high', FULL)), True
    yield '# a chain is lost for good'
    yield recipe('frame', ('open', FULL), ('close', CROSS), ('open', FULL), ('open', FULL)), True


with open('crates/listings/stdin', 'w') as asked, open('crates/listings/stdout', 'w') as told:
    for row in table():
        if isinstance(row, str):
            print(row, file=asked)
            print(row, file=told)
        else:
            data, ranked = row
            words = ['ranked' if ranked else 'unranked'] + [f'{byte:02x}' for byte in data]
            print(*words, file=asked)
            print(*listing(data, ranked), sep='\n', file=told)
shipped = recipe('frame', ('open', FULL), ('close', FULL), 'frame', ('close', FULL), ('open', FULL), 'mean-high')
with open('crates/listing/stdin', 'wb') as asked, open('crates/listing/stdout', 'w') as told:
    asked.write(shipped)
    print(*listing(shipped, True), sep='\n', file=told)
