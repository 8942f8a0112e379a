#!/usr/bin/env python3
"""walks.py: writes what the bindings need to know of the exported calls: bindings/layout.txt, layout.rs and ffi.rs in bindings/rust/src,
lintelsong.h and layout.c in bindings/c.

An export has the form

    pub extern "C" fn F(a: &mut S, .., x: &[u8], y: &[u8; 32], n: u64) -> u8 { cores::G(&mut a.f, &mut a.g, .., x, y, n) }

A table below has every struct with its fields, from which the offsets come, and every export with its parameters. The script stops if a struct of
this table is not the one that the source of its crate declares, with the size that the check proves of it, or if an export's parameters are not
those of the source. Run from anywhere, it writes the files. With `--check` it writes nothing, and fails if a file is not what it would write."""
import os, re, sys

TOP = os.path.dirname(os.path.dirname(os.path.abspath(__file__)))


# ---- what is described

class Field:
    """A field of a struct: a number, or an array of n numbers."""
    def __init__(self, name, width, n=None):
        self.name, self.width, self.n = name, width, n


class Struct:
    """A #[repr(C)] struct: its fields with the offset of each."""
    def __init__(self, name, fields):
        self.name, self.fields, self.low, self.offsets, at = name, fields, name.lower(), [], 0
        for f in fields:
            size = f.width // 8
            at = (at + size - 1) // size * size
            self.offsets.append(at)
            at += size * (f.n or 1)


class Param:
    """A parameter. kind: struct (a `&mut S`), slice, mut-slice, array, mut-array, number."""
    def __init__(self, kind, name, width=None, n=None, struct=None):
        self.kind, self.name, self.width, self.n, self.struct = kind, name, width, n, struct
        self.sliced = kind in ('slice', 'mut-slice')
        self.changes = kind in ('mut-slice', 'mut-array')

    def source(self):
        """The parameter as the source has it."""
        if self.kind == 'struct':
            return '%s: &mut %s' % (self.name, self.struct.name)
        if self.kind == 'number':
            return '%s: u%d' % (self.name, self.width)
        return '%s: &%s[u%d%s]' % (self.name, 'mut ' if self.changes else '', self.width, '' if self.sliced else '; %d' % self.n)


def struct(name, s): return Param('struct', name, struct=s)
def slice_(name, width): return Param('slice', name, width)
def mut_slice(name, width): return Param('mut-slice', name, width)
def array(name, width, n): return Param('array', name, width, n)
def mut_array(name, width, n): return Param('mut-array', name, width, n)
def number(name, width): return Param('number', name, width)


# ---- the exports

BUFFER = Struct('Buffer', [
    Field('owner', 16, 2048), Field('kind', 8, 2048), Field('form', 8, 2048), Field('time', 64, 2048),
    Field('address', 8, 65536), Field('hash', 8, 65536), Field('accounts', 8, 16384), Field('numbers', 64, 528)])
SKIPPED = Struct('Skipped', [Field('accounts', 8, 16384), Field('held', 64)])
GROUP = Struct('Group', [
    Field('number', 16, 64), Field('ints', 8, 64), Field('exts', 8, 64), Field('accounts', 8, 32768), Field('home', 8, 1024),
    Field('owner', 16, 1024), Field('kind', 8, 1024), Field('form', 8, 1024), Field('time', 64, 1024),
    Field('address', 8, 32768), Field('hash', 8, 32768), Field('buckets', 32, 1088), Field('numbers', 64, 16)])


def call(fn, params, result=8):
    return dict(fn='lintelsong_' + fn, params=params, result=result)


def on_buffer(name, *more, result=8):
    """A call on a buffer."""
    return call('buffer_' + name, [struct('b', BUFFER)] + list(more), result)


def on_skipped(name, *more, result=8):
    """A call on a skipped set."""
    return call('skipped_' + name, [struct('s', SKIPPED)] + list(more), result)


def on_group(name, *more, result=8):
    """A call on a group."""
    return call('group_' + name, [struct('g', GROUP)] + list(more), result)


EXPORTS = [
    ('export_buffer', [BUFFER], [
        on_buffer('set_up', number('messages', 64), number('accounts', 64)),
        on_buffer('add', array('address', 8, 32), array('hash', 8, 32), number('time', 64), number('kind', 8), number('special', 8), number('form', 8)),
        on_buffer('remove', slice_('names', 8)),
        on_buffer('begin'),
        on_buffer('rollback'),
        on_buffer('commit'),
        on_buffer('counts', mut_array('out', 64, 6)),
        on_buffer('has_min_ext_chain_time'),
        on_buffer('min_ext_chain_time', result=64),
        on_buffer('in_tx'),
        on_buffer('account_messages_count', array('name', 8, 32), result=64),
        on_buffer('is_filled_by_count', number('limit', 64)),
        on_buffer('is_filled_by_slots'),
        on_buffer('account_at', mut_array('out', 8, 32), number('place', 16)),
        on_buffer('message_at', mut_array('facts', 64, 4), mut_array('address', 8, 32), mut_array('hash', 8, 32), number('place', 16), number('position', 64)),
    ]),
    ('export_skipped', [SKIPPED], [
        on_skipped('set_up'),
        on_skipped('len', result=64),
        on_skipped('contains', array('name', 8, 32)),
        on_skipped('account_at', mut_array('out', 8, 32), number('position', 64)),
    ]),
    ('export_group', [GROUP], [
        on_group('set_up', number('slots', 64)),
        on_group('counts', mut_array('out', 64, 6)),
        on_group('is_empty'),
        on_group('contains_account', array('name', 8, 32)),
        on_group('check_is_filled', number('asked', 64), number('height', 64)),
        on_group('last_slot', mut_array('out', 16, 1)),
        on_group('display', mut_slice('out', 8), result=64),
        on_group('slot_at', mut_array('out', 64, 3), number('position', 64)),
        on_group('account_at', mut_array('out', 8, 32), number('k', 64)),
        on_group('slot_account_at', mut_array('out', 8, 32), number('position', 64), number('k', 64)),
        on_group('message_at', array('name', 8, 32), mut_array('facts', 64, 4), mut_array('address', 8, 32), mut_array('hash', 8, 32), number('k', 64)),
        on_group('bucket_at', mut_array('out', 16, 1), number('count', 64), number('k', 64)),
    ]),
    ('export_join', [GROUP], [
        call('group_join', [struct('left', GROUP), struct('right', GROUP)]),
    ]),
    ('export_fill', [BUFFER, GROUP, SKIPPED], [
        call('fill', [
            struct('b', BUFFER), struct('g', GROUP), struct('s', SKIPPED), slice_('names', 8), slice_('verdicts', 8), slice_('costs', 64),
            mut_slice('lts', 64), mut_slice('hashes', 8), mut_array('out', 64, 3), number('slots', 64), number('height', 64), number('cost', 64),
            number('filtered', 8), number('below', 64)]),
    ]),
]


# ---- what the sources say

def source(crate):
    with open(os.path.join(TOP, 'crates', crate, 'src', 'lib.rt')) as f:
        return f.read()


def declared(crate, name):
    """The fields of a struct as the source of a crate declares them."""
    body = re.search(r'#\[repr\(C\)\]\n(?:#\[derive\(.*\)\]\n)?pub struct %s \{\n(.*?)\n\}' % name, source(crate), re.S).group(1)
    fields = []
    for line in body.split('\n'):
        field, kind = re.fullmatch(r' *(\w+): (.*),', line).groups()
        array = re.fullmatch(r'\[u(\d+); (\d+)\]', kind)
        fields.append((field, int(array[1]), int(array[2])) if array else (field, {'usize': 64}.get(kind) or int(kind[1:]), None))
    return fields


def exported(crate):
    """The exports of a crate as its source has them: each with its parameters and the width of its result."""
    found = re.findall(r'#\[unsafe\(no_mangle\)\]\npub extern "C" fn (\w+)\((.*?)\) -> u(\d+)\n', source(crate), re.S)
    return {name: ([p.strip() for p in params.strip().rstrip(',').split(',')], int(result)) for name, params, result in found}


def agree():
    """A struct that several crates declare has one layout, and it is that of the table above; the check proves its size and alignment. The
    exports are those of the table."""
    for crate, structs, exports in EXPORTS:
        for s in structs:
            if declared(crate, s.name) != [(f.name, f.width, f.n) for f in s.fields]:
                sys.exit('walks: crates/%s declares another %s than this script describes' % (crate, s.name))
            size, align = size_of(s)
            if 'prove!(size_of::<%s>() == %d && align_of::<%s>() == %d);' % (s.name, size, s.name, align) not in source(crate):
                sys.exit('walks: crates/%s does not prove the size and alignment of %s that this script describes' % (crate, s.name))
        if exported(crate) != {e['fn']: ([p.source() for p in e['params']], e['result']) for e in exports}:
            sys.exit('walks: crates/%s exports other calls than this script describes' % crate)


def comments(crate):
    """What stands above each export."""
    found = re.findall(r'((?:// .*\n)+)#\[unsafe\(no_mangle\)\]\npub extern "C" fn (\w+)\(', source(crate))
    return {name: [line[3:] for line in said.strip().split('\n')] for said, name in found}


def codes():
    """The codes: number, name, and when each is given."""
    text = source('message')
    said = {name: (int(number), why) for number, why, name in re.findall(r'// (\d+): (.*)\n +(\w+),', text)}
    told = {name: int(number) for name, number in re.findall(r'Refusal::(\w+) => (\d+),', text)}
    if {name: number for name, (number, _) in said.items()} != told or 'Ok(()) => 0,' not in text:
        sys.exit('walks: the codes of crate message and their numbers part')
    said = {'Done': (0, 'done'), **said}
    return [(number, re.sub(r'(?<=[a-z])(?=[A-Z])', '_', name).upper(), why) for name, (number, why) in said.items()]


# ---- the layout

STRUCTS = (BUFFER, GROUP, SKIPPED)


def size_of(s):
    """All fields of a struct, and room behind them up to its alignment, which is that of its widest field."""
    last, align = s.fields[-1], max(f.width for f in s.fields) // 8
    return (s.offsets[-1] + last.width // 8 * (last.n or 1) + align - 1) // align * align, align


def layout():
    out = ['The structs of the exports: each field with its offset and size in bytes. Written by tools/walks.py.']
    for s in STRUCTS:
        out += ['', '%s: size %d, alignment %d' % ((s.low,) + size_of(s))]
        out += ['%s %s offset %d size %d' % (f.name, '[u%d; %d]' % (f.width, f.n) if f.n else 'u%d' % f.width, d, f.width // 8 * (f.n or 1)) for f, d in zip(s.fields, s.offsets)]
    return '\n'.join(out + [''])


def in_rust():
    """The structs as Rust declares them, and what the compiler is to find of their sizes and offsets."""
    out = ['//! The states of the exports as the archives lay them out, and checks at compile time that this compiler does the same.',
           '//! Written by tools/walks.py from the structs that the crates export_* declare; the offsets are those that C gives them.',
           '', 'use std::mem::{align_of, offset_of, size_of};', '',
           '// A state is reached through the exports alone, so no field is ever named but below.']
    for s in STRUCTS:
        out += ['#[repr(C)]', 'pub struct %sState {' % s.name]
        out += ['    %s: %s,' % (f.name, '[u%d; %d]' % (f.width, f.n) if f.n else 'usize' if s is SKIPPED else 'u%d' % f.width) for f in s.fields]
        out += ['}', '']
    out += ['const _: () = assert!(size_of::<usize>() == 8);']
    for s in STRUCTS:
        size, align = size_of(s)
        out += ['const _: () = assert!(size_of::<%sState>() == %d);' % (s.name, size), 'const _: () = assert!(align_of::<%sState>() == %d);' % (s.name, align)]
        out += ['const _: () = assert!(offset_of!(%sState, %s) == %d);' % (s.name, f.name, d) for f, d in zip(s.fields, s.offsets)]
    return '\n'.join(out + [''])


def in_c():
    """The same for C."""
    out = ['/* The states of the exports field by field, and checks at compile time that this compiler lays them out as the archives do: there is nothing',
           ' * in it to link. Written by tools/walks.py from the structs that the crates export_* declare; the offsets are those that C gives them. */',
           '#include "lintelsong.h"', '', 'static_assert(sizeof(size_t) == 8, "size_t");']
    for s in STRUCTS:
        out += ['', 'struct %s {' % s.low]
        out += ['    uint%d_t %s%s;' % (f.width, f.name, '[%d]' % f.n if f.n else '') for f in s.fields]
        out += ['};']
        out += ['static_assert(offsetof(struct %s, %s) == %d, "%s.%s");' % (s.low, f.name, d, s.low, f.name) for f, d in zip(s.fields, s.offsets)]
        out += ['static_assert(sizeof(struct %s) == sizeof(lintelsong_%s), "size of %s");' % (s.low, s.low, s.low),
                'static_assert(alignof(struct %s) == alignof(lintelsong_%s), "alignment of %s");' % (s.low, s.low, s.low)]
    return '\n'.join(out + [''])


# ---- the calls as Rust declares them

def calls_in_rust():
    """A slice is a pointer and a count. A state is a pointer: who calls says why nobody else is in it."""
    out = ['//! The exports as the archives have them. A slice crosses as a pointer and a count. Written by tools/walks.py.',
           '', 'use crate::layout::{%s};' % ', '.join(s.name + 'State' for s in STRUCTS), '', 'extern "C" {']
    for crate, structs, exports in EXPORTS:
        for e in exports:
            words = []
            for p in e['params']:
                if p.kind == 'struct':
                    words.append('%s: *mut %sState' % (p.name, p.struct.name))
                elif p.kind == 'number':
                    words.append('%s: u%d' % (p.name, p.width))
                elif p.sliced:
                    words += ['%s: *%s u%d' % (p.name, 'mut' if p.changes else 'const', p.width), '%s_len: usize' % p.name]
                else:
                    words.append('%s: &%s[u%d; %d]' % (p.name, 'mut ' if p.changes else '', p.width, p.n))
            out.append('    pub fn %s(%s) -> u%d;' % (e['fn'], ', '.join(words), e['result']))
    return '\n'.join(out + ['}', ''])


# ---- the header for C

OPENING = """/* The proved message buffer for C: a buffer of messages, a group of slots that is filled from it, and the set of accounts that fills skip.
 * Written by tools/walks.py; what is said of each call stands above it in crates/export_NAME/src/lib.rt, where its contract is.
 *
 * Link target/staticlib/libexport_NAME.a for buffer, skipped, group and fill; nothing else is needed but memcpy, memmove and memset.
 *
 * What a caller owes, and no call can see for itself:
 * - A struct is memory that its set_up has made, and nobody else has written to. set_up itself takes any memory.
 * - No pointer is NULL, also where the count behind it is 0. An array of n has room for n; a count is that of the elements.
 * - What one call is handed does not overlap, but for two things that are only read. A join has two different groups.
 * - One thread at a time is in a struct. There is no memory behind it, so it may be moved, copied and freed like any other bytes.
 *
 * A code is one of LINTELSONG_*; a refused call (not 0) leaves everything as it was, a refused set_up leaves room for one of each.
 * A test, and a walk that may be past the end, answers 1 or 0. */"""


def header():
    """The exports as C declares them. A slice is a pointer and a count, an array a pointer; the structs are closed: memory of their size."""
    out = [OPENING, '#ifndef LINTELSONG_H', '#define LINTELSONG_H', '#include <assert.h>', '#include <stdalign.h>', '#include <stddef.h>', '#include <stdint.h>', '',
           '#ifdef __cplusplus', 'extern "C" {', '#endif', '', '/* What a call answers. */', 'enum lintelsong_code {']
    for number, name, why in codes():
        out += ['    LINTELSONG_%s = %d, /* %s */' % (name, number, why)]
    out += ['};', '', '/* Closed: to be read and changed through the calls alone. bindings/layout.txt has the fields. */']
    for s in STRUCTS:
        out.append('typedef struct { uint64_t closed[%d]; } lintelsong_%s;' % (size_of(s)[0] // 8, s.low))
    for s in STRUCTS:
        out.append('static_assert(sizeof(lintelsong_%s) == %d && alignof(lintelsong_%s) == %d, "lintelsong_%s");' % (s.low, size_of(s)[0], s.low, size_of(s)[1], s.low))
    for crate, structs, exports in EXPORTS:
        said = comments(crate)
        for e in exports:
            words = []
            for p in e['params']:
                if p.kind == 'struct':
                    words.append('lintelsong_%s *%s' % (p.struct.low, p.name))
                elif p.kind == 'number':
                    words.append('uint%d_t %s' % (p.width, p.name))
                else:
                    held = 'uint%d_t' % p.width if p.changes else 'const uint%d_t' % p.width
                    words.append('%s *%s, size_t %s_len' % (held, p.name, p.name) if p.sliced else '%s %s[%d]' % (held, p.name, p.n))
            out += ['', '/* %s */' % '\n * '.join(said[e['fn']]), 'uint%d_t %s(%s);' % (e['result'], e['fn'], ', '.join(words))]
    return '\n'.join(out + ['', '#ifdef __cplusplus', '}', '#endif', '#endif', ''])


def main():
    if sys.argv[1:] not in ([], ['--check']):
        sys.exit('usage: walks.py [--check]')
    agree()
    bindings = os.path.join(TOP, 'bindings')
    put(os.path.join(bindings, 'layout.txt'), layout())
    put(os.path.join(bindings, 'rust', 'src', 'layout.rs'), in_rust())
    put(os.path.join(bindings, 'rust', 'src', 'ffi.rs'), calls_in_rust())
    put(os.path.join(bindings, 'c', 'lintelsong.h'), header())
    put(os.path.join(bindings, 'c', 'layout.c'), in_c())


def put(path, text):
    """Writes a file, unless it says the same already: a check need not be made anew for nothing."""
    text = '\n'.join(re.sub(r'(?<=\S) +(?=[ )])', '', line).rstrip() for line in text.split('\n'))
    if os.path.exists(path):
        with open(path) as f:
            if f.read() == text:
                return
    if sys.argv[1:]:
        sys.exit('walks: %s is not as written: run tools/walks.py' % os.path.relpath(path, TOP))
    os.makedirs(os.path.dirname(path), exist_ok=True)
    with open(path, 'w') as out:
        out.write(text)


if __name__ == '__main__':
    main()
