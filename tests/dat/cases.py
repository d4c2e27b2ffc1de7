"""Cases of trace.dat: each a name, a file, and what it must be answered with, a refusal's number or a whole listing."""
from build import WORDS, Header, flyrecord, latency

PAST, CONSTANT, RANGE, OVERLAP = 14, 15, 16, 17
SHAPES = [(order, long) for order in ('little', 'big') for long in (4, 8)]
PAGES = [2 ** k for k in range(10, 17)]
SMALLEST = flyrecord()


def accepted(name, header, more=b''):
    return name, header.bytes + more, header.listing()


def padded(name, header, total):
    """A file of `total` bytes: the header and zeros."""
    return accepted(name, header, bytes(total - len(header.bytes)))


def smallest():
    """The 97-byte file and its neighbours."""
    b = SMALLEST.bytes
    assert len(b) == 97
    yield accepted('97 bytes', SMALLEST)
    yield accepted('97 bytes and more', SMALLEST, b'\xff' * 7)
    for k in range(97):
        yield f'the first {k} of 97 bytes', b[:k], PAST


def strings():
    """Every fixed string cut short, with right and with wrong bytes before the cut, and wrong at each of its bytes."""
    b = SMALLEST.bytes
    for at, word in ((0, b[:3]), (3, b'tracing'), (10, b'6\0'), (18, b'header_page\0'), (38, b'header_event\0'), (87, WORDS['flyrecord'])):
        assert b[at:at + len(word)] == word
        for k in range(len(word)):
            wrong = b[:at + k] + bytes([word[k] ^ 1]) + b[at + k + 1:]
            yield f'byte {k} of {word} wrong', wrong, CONSTANT
            yield f'{word} wrong and cut short', wrong[:at + len(word) - 1], PAST
    yield 'version 7', b[:10] + b'7' + b[11:], CONSTANT


def flags():
    b = SMALLEST.bytes
    for order in (2, 255):
        yield f'byte order {order}', b[:12] + bytes([order]) + b[13:], CONSTANT
        yield f'byte order {order} at the end of the file', b[:12] + bytes([order]), CONSTANT
    for long in (0, 3, 5, 7, 9, 255):
        yield f'long size {long}', b[:13] + bytes([long]) + b[14:], CONSTANT
        yield f'long size {long} at the end of the file', b[:13] + bytes([long]), CONSTANT
    for order, long in SHAPES:
        for page in PAGES:
            yield accepted(f'page size {page}', flyrecord(order=order, long=long, page=page))
        for page in (0, 1, 512, 1023, 1025, 3072, 65535, 65537, 131072, 2 ** 32 - 1):
            yield f'page size {page}', flyrecord(order=order, long=long, page=page).bytes, CONSTANT


def sections():
    """Data in every section, and counts and sizes that run past the file."""
    full = {'page': b'P' * 5, 'event': b'E', 'formats': (b'', b'abc'), 'systems': ((b'', ()), (b'sched', (b'x' * 9, b'')))}
    texts = {'kallsyms': b'k' * 3, 'printk': b'p' * 2, 'processes': b'q'}
    for order, long in SHAPES:
        h = flyrecord(((8192, 4096),), order, long, 4096, ((1, b'd' * 8), (4, b'')), full, texts)
        yield padded('data in every section', h, 12288)
        for k in range(len(h.bytes)):
            yield f'data in every section, its first {k} bytes', h.bytes[:k], PAST
        for size in (2 ** 32 - 1, 2 ** 32, 2 ** 64 - 1, 2 ** 63):
            short = Header(order).opening(long).put(b'header_page\0').number(8, size).put(b'x' * 40)
            yield f'header page of {size} bytes', short.bytes, PAST
        for count in (1, 2 ** 16, 2 ** 32 - 1):
            start = Header(order).opening(long).put(b'header_page\0').number(8, 0).put(b'header_event\0').number(8, 0)
            yield f'{count} ftrace formats in a short file', start.number(4, count).bytes, PAST
            yield f'{count} ftrace formats, the first there', start.number(8, 0).bytes, PAST
            systems = Header(order).opening(long).put(b'header_page\0').number(8, 0).put(b'header_event\0').number(8, 0).number(4, 0)
            yield f'{count} systems in a short file', systems.number(4, count).bytes, PAST
            yield f'{count} systems and a name without its NUL', systems.put(b'sched').bytes, PAST
            yield f'{count} systems and {count} formats', systems.put(b'\0').number(4, count).bytes, PAST


def cpu_counts():
    """1,024 CPUs pass, 1,025 are refused where the count stands, whatever follows."""
    for order, long in SHAPES:
        most = flyrecord(((7, 0),) * 1024, order, long)
        yield accepted('1,024 CPUs', most)
        yield '1,024 CPUs, the last entry cut short', most.bytes[:-1], PAST
        yield accepted('1,024 CPUs in a latency file', latency(cpus=1024, order=order, long=long))
        for count in (1025, 65536, 2 ** 32 - 1):
            h = Header(order).opening(long).sections().texts(cpus=count)
            yield f'{count} CPUs and nothing more', h.bytes, RANGE
            yield f'{count} CPUs and a wrong word', h.bytes + b'flyrecord!', RANGE
            yield f'{count} CPUs in a latency file', h.bytes + WORDS['latency'], RANGE
        yield '1,024 CPUs and a wrong word', Header(order).opening(long).sections().texts(cpus=1024).bytes + b'flyrecord!', CONSTANT


def options():
    for order, long in SHAPES:
        for given in ((), ((1, b''),), ((65535, b'x'),), ((2, b'c' * 70), (2, b''), (3, b'0' * 8), (2, b'c'))):
            h = flyrecord(order=order, long=long, options=given)
            yield accepted(f'{len(given)} options', h)
            yield accepted(f'{len(given)} options in a latency file', latency(b'text', 2, order, long, given))
            for k in range(97 - 10, len(h.bytes)):
                yield f'{len(given)} options, the first {k} bytes', h.bytes[:k], PAST
        start = Header(order).opening(long).sections().texts()
        twice = WORDS['options'] + b'\0\0'
        yield 'options twice', start.bytes + twice + twice + WORDS['flyrecord'], CONSTANT
        yield 'options twice and nothing more', start.bytes + twice + WORDS['options'], CONSTANT
        yield 'options and a wrong word', start.bytes + twice + b'flyrecords', CONSTANT
        past = start.put(WORDS['options']).number(2, 5).number(4, 2 ** 32 - 1)
        yield 'an option past the file', past.bytes + b'\0' * 30, PAST


def endings():
    for order, long in SHAPES:
        for text in (b'', b'x', b'# latency\n' * 9):
            for cpus in (0, 3):
                yield accepted(f'latency with {len(text)} bytes of text', latency(text, cpus, order, long))
        yield 'a wrong word', Header(order).opening(long).sections().texts().bytes + b'latency\0\0\0', CONSTANT


def sound_ranges():
    """Ranges that pass: touching, unsorted, of size 0 wherever they are, up to the file's end, of part of a page."""
    top = 2 ** 64
    for order, long in SHAPES:
        for name, ranges in (
            ('one page', ((1024, 1024),)),
            ('one byte', ((1024, 1),)),
            ('up to the end', ((1024, 3072),)),
            ('touching', ((1024, 1024), (2048, 1024), (3072, 1024))),
            ('touching, unsorted', ((3072, 1024), (1024, 1024), (2048, 1024))),
            ('size 0 anywhere', ((0, 0), (7, 0), (1024, 0), (top - 1, 0), (4096, 0))),
            ('size 0 inside another', ((1024, 2048), (2048, 0), (1025, 0))),
        ):
            yield padded(f'ranges {name}', flyrecord(ranges, order, long, 1024), 4096)
        yield padded('header to the page', whole_page(order, long, 1024), 2048)


def whole_page(order, long, length):
    """A header of `length` bytes, with one range that starts at 1,024."""
    bare = len(flyrecord(((1024, 1024),), order, long, 1024).bytes)
    return flyrecord(((1024, 1024),), order, long, 1024, texts={'kallsyms': b'k' * (length - bare)})


def wrong_ranges():
    """16: misaligned, before the header's end, past the file, offset and size added as whole numbers; 16 comes before 17."""
    top = 2 ** 64
    for order, long in SHAPES:
        for name, ranges, number in (
            ('misaligned by one', ((1025, 1),), RANGE),
            ('misaligned by half a page', ((1536, 1),), RANGE),
            ('before the header end', ((0, 1),), RANGE),
            ('one byte past the file', ((1024, 3073),), RANGE),
            ('start at the file end', ((4096, 1),), RANGE),
            ('wrapping', ((top - 4096, 8192),), RANGE),
            ('wrapping to the last byte', ((top - 1024, 1024),), RANGE),
            ('as large as can be', ((1024, top - 1),), RANGE),
            ('overlapping by one byte', ((1024, 1025), (2048, 1024)), OVERLAP),
            ('the same twice', ((2048, 1024), (2048, 1024)), OVERLAP),
            ('one inside another', ((1024, 3072), (2048, 1)), OVERLAP),
            ('first and last overlap', ((1024, 1025), (3072, 1024), (2048, 1024)), OVERLAP),
            ('apart but for the first and the fourth', ((1024, 1025), (7, 0), (3072, 1), (2048, 1)), OVERLAP),
            ('the second and the third of four overlap', ((1024, 1), (2048, 1025), (3072, 1), (7, 0)), OVERLAP),
            ('overlapping, then misaligned', ((1024, 2048), (2048, 1024), (1025, 1)), RANGE),
            ('overlapping, then past the file', ((1024, 2048), (2048, 1024), (3072, 1025)), RANGE),
        ):
            h = flyrecord(ranges, order, long, 1024)
            yield f'ranges {name}', h.bytes + bytes(4096 - len(h.bytes)), number
        h = whole_page(order, long, 1025)
        yield 'range one byte before the header end', h.bytes + bytes(2048 - len(h.bytes)), RANGE
        h = flyrecord(((1025, 1), (7, 0)), order, long, 1024)
        yield 'an entry cut short before a misaligned range', h.bytes[:-1], PAST


def one_pair():
    """Six ranges out of order, of which one is made a byte longer, so that it overlaps one other; each two of them in turn."""
    pages = (3, 1, 6, 2, 5, 4)
    for order in ('little', 'big'):
        for cpu, page in enumerate(pages):
            ranges = [[1024 * k, 1024] for k in pages]
            yield padded('six ranges that touch', flyrecord(ranges, order, 8, 1024), 8192)
            ranges[cpu][1] += 1
            h = flyrecord(ranges, order, 8, 1024)
            yield f'page {page} a byte longer', h.bytes + bytes(8192 - len(h.bytes)), OVERLAP if page < 6 else h.listing()


def borders():
    """Ranges on both sides of a border, at that of 64 units of 1,024 bytes and around it, either of them first: touching, and with a byte in common."""
    for order in ('little', 'big'):
        for page in (1024, 4096):
            for border in (65536 - page, 65536, 65536 + page):
                for name, one, other, number in (
                    ('touching', (page, border - page), (border, 131072 - border), None),
                    ('a byte between', (page, border - page - 1), (border, 1), None),
                    ('a byte in common', (page, border - page + 1), (border, 131072 - border), OVERLAP),
                    ('one page in common', (page, border), (border, page), OVERLAP),
                    ('the last page twice', (page, 131072 - page), (131072 - page, 1), OVERLAP),
                    ('the page before the border twice', (page, border - page), (border - page, 1), OVERLAP),
                ):
                    for ranges in ((one, other), (other, one)):
                        h = flyrecord(ranges, order, 8, page)
                        listed = h.listing() if number is None else number
                        yield f'{name} at {border}', h.bytes + bytes(131072 - len(h.bytes)), listed


def alignments():
    """Of each page size: a page's start, and off it by each bit below the size, by several, by all of them and by half a page; then past the file."""
    for order in ('little', 'big'):
        for page in PAGES:
            for size in (1, 2, page):
                yield padded(f'{size} from a start of pages of {page}', flyrecord(((page, size),), order, 8, page), 2 * page)
            off = [2 ** k for k in range(page.bit_length() - 1)] + [3, page // 4 * 3, page - 1, -1, -(page // 2)]
            inside = [(page + d, size) for d in off for size in (1, page - d)]
            past = [(page + 2 ** k, 1) for k in (32, 33, 63)]
            for offset, size in inside + past:
                h = flyrecord(((offset, size),), order, 8, page)
                yield f'{size} from {offset} with pages of {page}', h.bytes + bytes(2 * page - len(h.bytes)), RANGE


GROUPS = (smallest, strings, flags, sections, cpu_counts, options, endings, sound_ranges, wrong_ranges, one_pair, borders, alignments)
