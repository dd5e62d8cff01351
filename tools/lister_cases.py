"""The lister's cases: each a bundle, and the refusal that it is meant to show (None: it is listed). LOOSE says the loose spans of some.

The texts are those of bundles.py, which is written from documents 01 and 02."""
from bundles import *

THREE = [(7, 0, 0), (1, 0, 0), (2, 0, 0)]
PLUS = leaf(punct(0, 10, "+"))
ROOT = root(2, [])
BOTH = root(3, [PLUS])


def parts(n):
    return [(i, 0, 0) for i in range(n)]


def nested(depth):
    inside = []
    for _ in range(depth - 1):
        inside = [subtree(0, 0, 1, 0, inside)]
    return root(3, inside)


def of(b, count, symbols=(), part_count=3):
    return bundle(parts(part_count), symbols, count, b)


def puncts(n, form=None):
    return of(root(3, [leaf(punct(0, 0, "+", form=form))] * (n - 1)), n)


def listed(*children):
    return of(root(3, list(children)), 1 + trees(children), [1])


def at_limit(index, start, length, form):
    """a punct whose span has these three numbers, in so many bytes"""
    return leaf(punct(index, start, "+", 0, length, form))


def limit(size):
    """a bundle of just so many bytes: 3 parts, 9 symbols, the rest puncts, some of which have a longer span than they need"""
    left = size - 3 * 14 - 9 * 6 - 10 - 33
    longer = {0: (), 1: (12, 12), 2: (12, 8), 3: (12,), 4: (8,)}[left % 5]
    children = [leaf(punct(0, 0, "+", form=form)) for form in longer]
    children += [PLUS] * ((left - len(packed(children))) // 5)
    data = of(root(3, children), 1 + len(children), range(9))
    assert len(data) == size
    return data


CASES = {
    # name: (bundle, refusal or None)
    "worked": (bundle(THREE, [], 2, BOTH), None),
    "lone_root": (of(ROOT, 1, part_count=2), None),
    "unused_symbols": (of(ROOT, 1, [5, 5, 0, MAX], 2), None),
    "same_parts": (bundle([(1, 2, 3)] * 3, [], 2, BOTH), None),
    "any_order": (symbol_record(9) + part_record(1) + symbol_record(8) + part_record(2, 3, 4) + part_record(5) + symbol_record(1)
                  + last_record(4, root(3, [leaf(ident(0, 4, 2, 2)), leaf(literal(0, 8, 1, 0, 2)), leaf(ident(0, 9, 3, 1, 1))])), None),
    "every_sort": (of(root(5, [
        subtree(0, 4, 9, 0, [leaf(ident(0, 5, 2, 1)), subtree(1, 20, 26, 1, [leaf(punct(1, 22, "→", 1, 3))], length=2)]),
        subtree(0, 40, 99, 2, [leaf(literal(2, 41, 9, 2, 5, 9, 3)), leaf(literal(2, 60, 3, 0, 4))], close_part=2),
        subtree(0, 300000, 12, 3, []), leaf(punct(2, 7, "+", 2))]), 10, [1, 2, 3], 5), None),
    "nested_256": (of(nested(256), 256), None),
    "fields_at_limits": (of(root(3, [leaf(punct(0, MAX - 1, "\U0010ffff")), leaf(literal(0, 0, MAX, 0, 10, 0, 255))]), 3, [1]), None),
    "close_before_open": (of(root(3, [subtree(0, 9, 5, 0, [])]), 2), None),
    "long_forms": (of(root(3, [leaf(span(0, 1, 1, 1, 12) + b"\x56"), leaf(span(0, 1, 1, 2, 8) + symbol(0, 0, 4)),
                               subtree(0, 1, 2, 0, [PLUS], form=5), leaf(span(0, 3, 1) + b"\x06" + le(0x2B))]), 6, [1]), None),
    "size_65536": (limit(65536), None),
    "most_trees": (puncts(13090), None),
    # loose spans
    "loose_in_8": (listed(leaf(punct(0, 10, "+", form=8))), None),
    "loose_in_12": (listed(leaf(punct(0, 10, "+", form=12))), None),
    "loose_by_8_in_12": (listed(leaf(punct(0, 10, "+", 0, 256, 12))), None),
    "loose_sorts": (listed(leaf(punct(0, 1, "é", form=8)), leaf(ident(0, 2, 1, 0, 1, 12)), leaf(literal(0, 3, 1, 0, 4, form=8)), leaf(literal(0, 3, 1, 0, 10, form=12)),
                           subtree(0, 4, 9, 0, [subtree(0, 5, 6, 1, [], 2, form=1, open_form=12)], open_form=8), subtree(0, 5, 6, 2, [], 2, form=2, open_form=8)), None),
    "loose_open_of_101": (listed(subtree(0, 9, 5, 0, [PLUS], form=5, open_form=12)), None),
    "loose_close_of_101": (listed(subtree(0, 9, 5, 0, [PLUS], form=5, close_form=8)), None),
    "loose_both_of_101": (listed(subtree(0, 9, 5, 0, [PLUS], form=5, open_form=8, close_form=12)), None),
    "loose_close_extra_bits": (listed((span(0, 9, 1) + b"\x05" + span(0, 5, 1, 3, 8) + bytes(8), 0)), None),
    "distance_300_in_8": (listed(subtree(0, 9, 309, 0, [])), None),
    "distance_300_in_12": (listed(subtree(0, 9, 309, 0, [], open_form=12)), None),
    "distance_256": (listed(subtree(0, 5, 261, 0, [])), None),
    "distance_2047": (listed(subtree(0, 5, 2052, 0, [])), None),
    "distance_255_in_8": (listed(subtree(0, 9, 264, 0, [], open_form=8)), None),
    "limits_of_4": (of(root(19, [at_limit(15, 131071, 255, 8), at_limit(16, 131071, 255, 8), at_limit(15, 131072, 255, 8), at_limit(15, 131071, 256, 8)]), 5, (), 19), None),
    "limits_of_8": (listed(at_limit(0, 134217727, 262143, 12), at_limit(0, 134217728, 262143, 12), at_limit(0, 134217727, 262144, 12)), None),
    "root_loose": (of(root(3, [PLUS], opening=(9, 3), closing=(40, 2)), 2), None),
    "root_not_loose": (of(root(3, [PLUS], opening=(134217728, 3), closing=(134217731, 2)), 2), None),
    "loose_symbols_and_forms": (listed(leaf(span(0, 1, 1, 2) + symbol(0, 0, 4)), subtree(0, 1, 2, 0, [PLUS], form=5), leaf(span(0, 3, 1) + b"\x06" + le(0x2B)),
                                       leaf(span(0, 4, 1) + b"\x17\x00" + symbol(0, 0, 2))), None),
    "most_loose": (puncts(7273, 8), None),
    # 1
    "empty": (b"", (1, 0)),
    "one_byte": (b"B", (1, 0)),
    "other_mark": (b"SX" + le(1) + of(ROOT, 1, part_count=2), (1, 0)),
    "small_letters": (of(ROOT, 1, part_count=2).replace(b"BT", b"bt"), (1, 0)),
    "no_last": (b"".join(part_record(i) for i in range(3)), (1, 0)),
    "part_cut": (of(ROOT, 1, part_count=2)[:13], (1, 0)),
    "symbol_cut": (symbol_record(1)[:5], (1, 0)),
    "last_cut": (of(ROOT, 1, part_count=2)[:28 + 9], (1, 0)),
    "bytes_cut": (of(ROOT, 1, part_count=2)[:-1], (1, 0)),
    "byte_after_last": (of(ROOT, 1, part_count=2) + b"\0", (1, 0)),
    "part_after_last": (of(ROOT, 1, part_count=2) + part_record(1), (1, 0)),
    "no_parts": (of(ROOT, 1, part_count=0), (1, 0)),
    "one_part": (of(ROOT, 1, part_count=1), (1, 0)),
    "no_trees": (of(ROOT, 0, part_count=2), (1, 0)),
    "too_many_trees": (of(ROOT, 2**20 + 1, part_count=2), (1, 0)),
    "size_65537": (limit(65537), (1, 0)),
    "size_65541": (limit(65541), (1, 0)),
    # 2
    "spacing_3": (of(root(3, [leaf(span(0, 0, 1, 3) + b"\x57")]), 2), (2, 1)),
    "surrogate": (of(root(3, [leaf(span(0, 0, 1) + b"\x06" + le(0xD800))]), 2), (2, 1)),
    "root_kind_4": (of(root(2, [], 4), 1, part_count=2), (2, 0)),
    "root_light": (of(subtree(0, 0, 0, 3, [], close_part=1, form=5)[0], 1, part_count=2), (2, 0)),
    "range_too_far": (of(root(3, [leaf(punct(0, MAX, "+"))]), 2), (2, 1)),
    "close_too_far": (of(root(3, [subtree(0, MAX - 1, MAX, 0, [], form=1)]), 2), (2, 1)),
    "kind_11_at_the_end": (of(root(3, [leaf(span(0, 0, 1) + bytes([7 + 8 * 11]))]), 2), (2, 1)),
    "bits_without_length": (listed((span(0, 5, 3) + b"\x20\0\0", 0)), (2, 1)),
    "length_without_bits": (listed((span(0, 5, 300) + b"\0\0\0", 0)), (2, 1)),
    "length_255_bit_5": (listed((span(0, 5, 255) + b"\x20\0\0", 0)), (2, 1)),
    "length_256_no_bits": (listed((span(0, 5, 256) + b"\0\0\0", 0)), (2, 1)),
    "length_2048": (listed((span(0, 5, 2048) + b"\0\0\0", 0)), (2, 1)),
    "length_2048_all_bits": (listed((span(0, 5, 2048) + b"\xe0\0\0", 0)), (2, 1)),
    "bits_before_8": (listed((span(5, 5, 3) + b"\x20\0\0", 0)), (2, 1)),
    # 3
    "root_count_1": (of(root(3, [PLUS, PLUS], count=1), 3), (3, 0)),
    "passes_the_end": (of(root(3, [(subtree(0, 0, 1, 0, [])[0][:5] + b"\x02\x00", 0), PLUS]), 3), (3, 1)),
    "inner_passes_outer": (of(root(3, [(subtree(0, 0, 1, 0, [])[0][:5] + b"\x01\x07", 0), (subtree(0, 0, 1, 0, [])[0][:5] + b"\x01\x05", 0), PLUS]), 4), (3, 2)),
    # 4
    "nested_257": (of(nested(257), 257), (4, 256)),
    # 7
    "root_of_20_bytes": (of(ROOT[:20], 1, part_count=2), (7, 0)),
    "no_bytes": (of(b"", 1, part_count=2), (7, 0)),
    "tree_cut": (of(BOTH[:-1], 2), (7, 1)),
    "tree_due": (of(BOTH, 3), (7, 2)),
    "cut_and_other_bits": (of(root(3, [leaf(span(0, 5, 3) + b"\x20\0")]), 2), (7, 1)),
    "cut_and_out_of_range": (of(root(3, [leaf(span(0, MAX, MAX, 1, 12))]), 2), (7, 1)),
    "cut_counts_before_3": (of(root(3, [PLUS, PLUS], count=9)[:-1], 3), (7, 2)),
    # 8
    "part_5_of_3": (of(root(3, [leaf(punct(5, 10, "+"))]), 2), (8, 1)),
    "root_part_below": (of(root(3, [leaf(punct(1, 10, "+"))]), 2), (8, 1)),
    "close_part_out": (of(root(4, [subtree(0, 0, 1, 0, [], close_part=2)]), 2, part_count=4), (8, 1)),
    "symbol_out": (of(root(3, [leaf(ident(0, 0, 1, 1))]), 2, [4]), (8, 1)),
    "literal_out": (of(root(3, [leaf(literal(0, 0, 1, 0, 4))]), 2), (8, 1)),
    "root_parts_swapped": (of(span(1, 0, 0, 0, 12) + b"\x1d" + span(0, 0, 0, 0, 12) + bytes(8), 1, part_count=2), (8, 0)),
    "third_part": (of(ROOT, 1), (8, 0)),
    # 9
    "stray_byte": (of(ROOT + b"\0", 1, part_count=2), (9, 1)),
    "stray_counts_before_3": (of(root(3, [PLUS], count=9) + b"\0", 2), (9, 2)),
    "root_bytes_wrong": (of(root(3, [PLUS], size=4), 2), (9, 0)),
    "inner_bytes_wrong": (of(root(3, [PLUS, (subtree(0, 0, 1, 0, [PLUS])[0][:6] + b"\x06" + PLUS[0], 1)]), 4), (9, 2)),
}

LOOSE = {
    "worked": 0, "lone_root": 0, "long_forms": 2, "most_trees": 0, "loose_in_8": 1, "loose_in_12": 1, "loose_by_8_in_12": 1, "loose_sorts": 7,
    "loose_open_of_101": 1, "loose_close_of_101": 1, "loose_both_of_101": 2, "loose_close_extra_bits": 1, "distance_300_in_8": 0,
    "distance_300_in_12": 1, "distance_256": 0, "distance_2047": 0, "distance_255_in_8": 1, "limits_of_4": 1, "limits_of_8": 1, "root_loose": 0, "root_not_loose": 0,
    "loose_symbols_and_forms": 0, "most_loose": 7272,
}

for name, (data, refused) in CASES.items():
    text = listing(data)
    assert text == refusal(*refused) if refused else text.startswith("trees "), (name, text)
    assert name not in LOOSE or text.split("\n")[0].endswith(f" loose {LOOSE[name]}"), (name, text)
