#!/usr/bin/env python3
"""Writes crates/recorded_answers/proofs/Recorded.antt: recorded answers as theorems that the checker computes from the definitions.

    python3 host/recorded/worked.py        (from the repository's top; `rt fmt` lays the file out)

Taken from answers.bin: calls on stores of at most 8 blocks and 4 group places, on files of at most 4,200 bytes (a checksum over more takes the
checker too long), at most two for each kind of call, number and source; accepted fills with reserved blocks and without are two kinds, accepted
writes and grows of a file whose creation time is its last change's, none, or another are three, and each of these is two where the new blocks are
the lowest free ones or, to lie in one run, others. The format is README.md's, beside this file.
"""
import struct
from collections import Counter

MOST_BLOCKS, MOST_GROUPS, MOST_BYTES, MOST_LITERALS, EACH = 8, 4, 4200, 2000, 2
CARD_BYTES = 48
BUFFERS = ['image', 'head', 'cards', 'extents', 'groups', 'used', 'retired']
CALLS = ['fresh', 'enter', 'write', 'grow', 'read', 'settle', 'fill']

HEADER = '''-- Recorded answers of the Rust and of the model (host/recorded/answers.bin), computed by the checker from the definitions: each call's number, count and output
-- buffer, and every byte of the store that it leaves. Written by host/recorded/worked.py, which says which calls are taken.
-- Assumes nothing.
use mathlib.Core.Path.{◌≡◌, refl}
use mathlib.Core.List.{List, [], ◌∷◌, ◌++◌}
use Prim.Native.Nat.{ℕ, zero, suc, ◌+◌, ◌%◌}
use Rattle.rules.specs.Time.{Time}
use Rattle.rules.specs.Store.{Store}
use Rattle.rules.specs.Call.{call}
use Rattle.rules.specs.Call.Look.{read, fill}
use Rattle.rules.specs.Call.Call.{fresh, enter, write, grow, settle, look}
use Rattle.rules.proofs.Opened.{opened}

-- so many seconds, and nanoseconds
abbrev pub time : ℕ → ℕ → Time
time seconds nanoseconds = record { seconds = seconds; nanoseconds = nanoseconds }

-- n bytes from b on, each a step above the one before, modulo 256
pub ramp : ℕ → ℕ → ℕ → List ℕ
ramp zero b step = []
ramp (suc n) b step = b ∷ ramp n ((b + step) % 256) step
'''


class Reader:
    """The recorded entries, with the store before and after each call."""

    def __init__(self, data):
        assert data[:8] == b'SGKREC01'
        self.data, self.at = data, 8

    def number(self, form):
        (value,) = struct.unpack_from(form, self.data, self.at)
        self.at += struct.calcsize(form)
        return value

    def u8(self): return self.number('<B')
    def u32(self): return self.number('<I')
    def u64(self): return self.number('<Q')

    def packed(self, length):
        out = bytearray()
        while len(out) < length:
            if self.u8() == 0:
                n, first, step = self.u32(), self.u8(), self.u8()
                out += bytes((first + step * i) % 256 for i in range(n))
            else:
                n = self.u32()
                out += self.data[self.at:self.at + n]
                self.at += n
        return bytes(out)

    def changed(self, store):
        store = [bytearray(buffer) for buffer in store]
        for _ in range(self.u32()):
            buffer, offset, length = self.u8(), self.u32(), self.u32()
            store[buffer][offset:offset + length] = self.packed(length)
        return [bytes(buffer) for buffer in store]

    def call(self):
        kind = CALLS[self.u8()]
        if kind == 'fresh':
            return kind, self.packed(self.u32()), self.u64()
        if kind == 'enter':
            return kind, self.u64(), self.u64(), self.u64()
        if kind == 'write':
            return kind, self.u64(), self.u64(), self.packed(self.u32()), self.u64(), self.u64()
        if kind == 'grow':
            return kind, self.u64(), self.u64(), self.u64(), self.u64()
        if kind == 'read':
            return kind, self.u64(), self.u64(), bytes([165]) * self.u32()
        return (kind,)

    def entries(self):
        store = None
        while (entry := self.u8()) != 0:
            if entry == 1:
                lengths = [self.u32() for _ in BUFFERS]
                store = [self.packed(length) for length in lengths]
            elif entry == 2:
                store = self.changed(store)
            else:
                source, call = self.u8(), self.call()
                number, count = self.u32(), self.u64()
                out = self.packed(len(call[3])) if call[0] == 'read' else b''
                after = self.changed(store)
                yield source, call, number, count, out, store, after
                store = after


def pieces(data):
    """Ramps of six bytes or more, and the bytes between them."""
    found, at, plain = [], 0, []
    while at < len(data):
        end = at + 1
        step = (data[end] - data[at]) % 256 if end < len(data) else 0
        while end < len(data) and (data[end] - data[end - 1]) % 256 == step:
            end += 1
        if end - at >= 6:
            if plain:
                found.append(plain)
                plain = []
            found.append((end - at, data[at], step))
            at = end
        else:
            plain.append(data[at])
            at += 1
    return found + [plain] if plain else found


def literals(data):
    return sum(len(piece) for piece in pieces(data) if isinstance(piece, list))


def written(data):
    terms = ['ramp %d %d %d' % piece if isinstance(piece, tuple) else '(' + ' ∷ '.join(map(str, piece)) + ' ∷ [])' for piece in pieces(data)]
    return ' ++ '.join(terms) or '[]'


def written_call(call):
    """The last two numbers of a call that changes a file are its time; a call that leaves the store is a look."""
    words = ['(%s)' % written(part) if isinstance(part, bytes) else str(part) for part in call[1:]]
    if call[0] in ('enter', 'write', 'grow'):
        words[-2:] = ['(time %s %s)' % tuple(words[-2:])]
    form = ' '.join([call[0]] + words)
    return 'look (%s)' % form if call[0] in ('read', 'fill') else form


def written_store(store):
    return 'record { ' + '; '.join('%s = %s' % (name, written(buffer)) for name, buffer in zip(BUFFERS, store)) + ' }'


def card_field(store, obj, at, width):
    """Of a file's card, in bits from the most significant on; 0 where it has none."""
    head = int.from_bytes(store[1], 'big') if len(store[1]) == 28 else 0
    for place in range(min(head >> 40 & 0xfffff, len(store[2]) // CARD_BYTES)):
        card = int.from_bytes(store[2][CARD_BYTES * place:CARD_BYTES * (place + 1)], 'big')
        if card >> 8 * CARD_BYTES - 64 == obj:
            return card >> 8 * CARD_BYTES - at - width & (1 << width) - 1
    return 0


def size_of(store, obj):
    return card_field(store, obj, 64, 63)


def creation(store, obj):
    changed, created = (card_field(store, obj, at, 63 + 30) for at in (162, 255))
    return 'as changed' if created == changed else 'other' if created else 'none'


def lowest(store, after):
    """Whether the blocks that became used are the lowest free ones."""
    before, now = (int.from_bytes(used[5], 'little') for used in (store, after))
    free = [block for block in range(len(store[0]) // 4096) if not before >> block & 1]
    new = [block for block in free if now >> block & 1]
    return new == free[:len(new)]


def reserved(store):
    return int.from_bytes(store[1], 'big') >> 62 & (1 << 17) - 1


def kind(source, call, number, store, after):
    """Of which EACH are taken."""
    more = None
    if number == 0 and call[0] == 'fill':
        more = reserved(store) > 0
    if number == 0 and call[0] in ('write', 'grow'):
        more = creation(store, call[1]), lowest(store, after)
    return call[0], number, source, more


def light(call, number, store, after):
    """The checker can compute it in seconds."""
    if len(store[0]) // 4096 > MOST_BLOCKS or len(store[4]) // 1073 > MOST_GROUPS:
        return False
    if max(sum(map(literals, store)), sum(map(literals, after))) > MOST_LITERALS:
        return False
    if call[0] not in ('write', 'grow', 'read') or 0 < number < 9:
        return True
    end = {'write': lambda: call[2] + len(call[3]), 'grow': lambda: call[2], 'read': lambda: 0}[call[0]]()
    return max(size_of(store, call[1]), end if number == 0 else 0) <= MOST_BYTES


def main():
    with open('host/recorded/answers.bin', 'rb') as f:
        entries = list(Reader(f.read()).entries())
    text, taken = [HEADER], Counter()
    for n, (source, call, number, count, out, store, after) in enumerate(entries):
        of = kind(source, call, number, store, after)
        if taken[of] == EACH or not light(call, number, store, after):
            continue
        taken[of] += 1
        left = 'before%d' % n if store == after else 'after%d' % n
        text.append('-- entry %d, %s: %s' % (n, call[0], 'refused by %d' % number if number else 'accepted'))
        text.append('pub before%d : Store\nbefore%d = %s\n' % (n, n, written_store(store)))
        if store != after:
            text.append('pub after%d : Store\nafter%d = %s\n' % (n, n, written_store(after)))
        text.append('pub entry%d : call (%s) before%d ≡ record { number = %d; count = %d; store = %s; out = %s }'
                    % (n, written_call(call), n, number, count, left, written(out)))
        text.append('unfolding opened ramp before%d%s\nentry%d = refl\n' % (n, '' if store == after else ' ' + left, n))
    with open('crates/recorded_answers/proofs/Recorded.antt', 'w', encoding='utf-8') as f:
        f.write('\n'.join(text))
    print(f'{sum(taken.values())} calls:', ', '.join(f'{k} {n}' for (k, n, *_), c in sorted(taken.items(), key=lambda item: item[0][:2]) for _ in range(c)))


main()
