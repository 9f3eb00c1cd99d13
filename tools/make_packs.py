#!/usr/bin/env python3
"""Makes the packs that the programs load_packs and list_pack are run on, and what they must print.

    make_packs.py            write crates/load_packs/{data/,args,stdout} and crates/list_pack/{stdin,stdout}
    make_packs.py --check    say whether those files are what this script makes

What the programs must print comes from decode.py beside this file, a decoder of the format of its own.
"""
import os
import sys

sys.dont_write_bytecode = True
from encode import *
import decode

TOP = os.path.join(os.path.dirname(os.path.abspath(__file__)), '..', 'crates')

# ---- packs around one record

TYPE = field_type('NUMBER', root='NUMBER')


def of_type(t):
    return pack(types=[t])


def of_lookup(*ls):
    return pack(lookups=ls)


def of_pgn(p):
    return pack(trees=[[p], [], []])


def of_field(*fs):
    return pack(types=[TYPE], trees=[[pgn(fields=fs)], [], []])


def bits(n, **items):
    return field(res_bits=num(n), **items)


MOST = 4294967295
CODES = lookup('CODES', kind=3, bits=8, entries=[
    fieldtype_entry(0, 'Speed', 'NUMBER'),
    fieldtype_entry(1, 'Kind', 'LOOKUP', opt(text('YES_NO')))])
FAULTS = lookup('FAULTS', kind=2, bits=16, entries=[pair(0, 'Low'), pair(15, 'High')])
GROUPS = lookup('GROUPS', kind=1, bits=8, entries=[triplet(1, 2, 'One'), triplet(1, 2 ** 64 - 1, 'Two')])
YES_NO = lookup('YES_NO', kind=0, bits=2, entries=[pair(0, 'No'), pair(1, 'Yes')])
EVERYTHING = field(
    id='rate', name='Rate', type='NUMBER', ft=num(1), flags=num(63),
    res_bits=num(16), res_resolution=f64(0.25), res_offset=f64(-40.0), res_unit=opt(text('m/s')),
    resolution=opt(f64(0.25)), offset=opt(f64(-40.0)), spn=opt(num(524287)), continues=opt(text('base')),
    match=opt(text('+5')), reference=opt(num(3) + text('CODES')), special_values=opt(num(3)),
    bit_length_field=opt(text('size')), trailing_zero=opt(text('base')), continuation=opt(num(16)))
FULL = pack(
    types=[TYPE, field_type('SPEED', flags=num(5), size=num(16), resolution=f64(0.01), root='NUMBER')],
    lookups=[CODES, FAULTS, GROUPS, YES_NO],
    trees=[
        [pgn(127488, 'engine', flags=num(7), minimum=opt(num(8)), set1=opt(rep(2, 1, opt(num(1)), num(0))),
             set2=opt(rep(1, 2, NO, num(1))), fields=[field(id='base', name='Base'), EVERYTHING]),
         pgn(59904, 'request', type=num(2), length=num(3))],
        [pgn(65226, 'faults', type=num(1), fields=[bits(19, id='spn', name='SPN of fault', spn=opt(num(1)))])],
        [pgn(0, 'quick', type=num(3), flags=num(1))]])

# what 01 shows of the report program
SMALL = pack(
    types=[TYPE],
    trees=[[pgn(127488, 'a', set1=opt(rep(2, 1)), fields=[bits(64, id='r', name='Reserved')])], [], []])

# ---- the packs, each with a name that says what it tests

THE_PACK = [
    ('empty_file', b''),
    ('version_alone', num(1)),
    ('version_cut', b'\x81'),
    ('version_0', pack(version=num(0))),
    ('version_2', pack(version=num(2))),
    ('version_128', pack(version=num(128))),
    ('version_1_in_two_bytes', pack(version=longer(1, 2))),
    ('version_2_in_two_bytes', pack(version=longer(2, 2))),
    ('version_1_above_32_bits', pack(version=num(2 ** 32 + 1))),
    ('version_1_above_64_bits', pack(version=num(2 ** 64 + 1))),
    ('three_empty_trees', pack()),
    ('count_of_types_missing', pack(types=CUT)),
    ('count_of_lookups_missing', pack(lookups=CUT)),
    ('tree_0_missing', pack(trees=[CUT, [], []])),
    ('tree_1_missing', pack(trees=[[], CUT, []])),
    ('tree_2_missing', pack(trees=[[], [], CUT])),
    ('count_of_types_in_two_bytes', pack(types=longer(0, 2))),
    ('count_of_lookups_above_32_bits', pack(lookups=num(2 ** 32))),
    ('count_of_tree_2_in_two_bytes', pack(trees=[[], [], longer(0, 2)])),
    ('more_types_counted', pack(types=num(MOST))),
    ('more_pgns_counted', pack(trees=[[], num(2) + pgn(), CUT])),
    ('one_byte_after_the_end', pack() + b'\x00'),
    ('bytes_after_the_end', FULL + b'\x80\x80'),
    ('full', FULL),
    ('full_less_its_last_byte', FULL[:-1]),
    ('small', SMALL),
]

NUMBERS = [
    ('zero_in_two_bytes', of_type(field_type(size=longer(0, 2)))),
    ('zero_in_three_bytes', of_type(field_type(size=longer(0, 3)))),
    ('one_in_two_bytes', of_type(field_type(size=longer(1, 2)))),
    ('one_in_eleven_bytes', of_type(field_type(size=longer(1, 11)))),
    ('number_127', of_type(field_type(size=num(127)))),
    ('number_128', of_type(field_type(size=num(128)))),
    ('number_127488', of_type(field_type(size=b'\x80\xe4\x07'))),
    ('number_of_32_bits', of_type(field_type(size=num(MOST)))),
    ('number_of_33_bits', of_type(field_type(size=num(MOST + 1)))),
    ('number_of_35_bits', of_type(field_type(size=num(2 ** 35 - 1)))),
    ('number_0_above_64_bits', of_type(field_type(size=num(2 ** 64)))),
    ('number_of_eleven_groups', of_type(field_type(size=num(2 ** 77 - 1)))),
    ('number_of_forty_groups', of_type(field_type(size=num(2 ** 280 - 1)))),
    ('number_cut', of_type(field_type(size=b'\x80' + CUT))),
    ('number_never_ends', of_type(field_type(size=b'\x80' * 30 + CUT))),
    ('number_never_ends_of_ones', of_type(field_type(size=b'\xff' * 30 + CUT))),
    ('value_of_64_bits', of_lookup(lookup('L', entries=[pair(2 ** 64 - 1, 'x')]))),
    ('value_of_65_bits', of_lookup(lookup('L', entries=[pair(2 ** 64, 'x')]))),
    ('value_of_70_bits', of_lookup(lookup('L', entries=[pair(2 ** 70 - 1, 'x')]))),
    ('value_of_eleven_groups', of_lookup(lookup('L', entries=[pair(2 ** 71, 'x')]))),
    ('value_in_a_byte_too_many', of_lookup(lookup('L', entries=[longer(2 ** 63 - 1, 10) + text('x')]))),
    ('value_of_32_bits_and_more', of_lookup(lookup('L', entries=[pair(2 ** 32, 'x')]))),
]

TYPES = [
    ('type_name_missing', of_type(field_type(name=CUT))),
    ('type_name_length_in_two_bytes', of_type(field_type(name=longer(3, 2) + b'abc'))),
    ('type_name_length_in_two_bytes_and_cut', of_type(field_type(name=longer(3, 2) + CUT))),
    ('type_name_length_of_33_bits', of_type(field_type(name=num(2 ** 32) + CUT))),
    ('type_name_length_of_32_bits_and_cut', of_type(field_type(name=num(MOST) + b'abc' + CUT))),
    ('type_name_one_byte_short', of_type(field_type(name=num(3) + b'ab' + CUT))),
    ('type_name_ends_at_the_end', of_type(field_type(name=num(3) + b'abc' + CUT))),
    ('type_name_empty', of_type(field_type(name=''))),
    ('type_name_of_any_bytes', of_type(field_type(name=num(3) + b'\x00\xff\x80'))),
    ('type_flags_missing', of_type(field_type(flags=CUT))),
    ('type_flags_7', of_type(field_type(flags=num(7)))),
    ('type_flags_8', of_type(field_type(flags=num(8)))),
    ('type_flags_8_in_two_bytes', of_type(field_type(flags=longer(8, 2)))),
    ('type_flags_of_33_bits', of_type(field_type(flags=num(2 ** 32)))),
    ('type_size_missing', of_type(field_type(size=CUT))),
    ('type_resolution_missing', of_type(field_type(resolution=CUT))),
    ('type_resolution_of_seven_bytes', of_type(field_type(resolution=b'\x00' * 7 + CUT))),
    ('type_resolution_of_eight_bytes', of_type(field_type(resolution=b'\x00' * 8 + CUT))),
    ('type_resolution_not_a_number', of_type(field_type(resolution=b'\xff' * 8))),
    ('type_root_missing', of_type(field_type(root=CUT))),
    ('type_root_one_byte_short', of_type(field_type(root=num(2) + b'a' + CUT))),
    ('second_type_missing', pack(types=num(2) + TYPE + CUT)),
    ('second_type_flags_8', pack(types=[TYPE, field_type(flags=num(8))])),
]

LOOKUPS = [
    ('lookup_name_missing', of_lookup(lookup(CUT))),
    ('lookup_first_name_empty', of_lookup(lookup(''), lookup('A'))),
    ('lookup_names_rise', of_lookup(lookup('A'), lookup('B'))),
    ('lookup_name_equal', of_lookup(lookup('A'), lookup('A'))),
    ('lookup_name_equal_and_empty', of_lookup(lookup(''), lookup(''))),
    ('lookup_name_lower', of_lookup(lookup('B'), lookup('A'))),
    ('lookup_name_a_prefix', of_lookup(lookup('AB'), lookup('A'))),
    ('lookup_name_longer', of_lookup(lookup('A'), lookup('AA'))),
    ('lookup_name_longer_and_lower', of_lookup(lookup('B'), lookup('AAA'))),
    ('lookup_name_empty_later', of_lookup(lookup('A'), lookup(''))),
    ('lookup_third_name_between', of_lookup(lookup('A'), lookup('C'), lookup('B'))),
    ('lookup_names_127_128', of_lookup(lookup(num(1) + b'\x7f'), lookup(num(1) + b'\x80'))),
    ('lookup_names_128_127', of_lookup(lookup(num(1) + b'\x80'), lookup(num(1) + b'\x7f'))),
    ('lookup_name_equal_and_kind_4', of_lookup(lookup('A'), lookup('A', kind=4))),
    ('lookup_name_lower_and_cut', of_lookup(lookup('B'), lookup(num(2) + b'A' + CUT))),
    ('lookup_name_lower_and_length_in_two_bytes', of_lookup(lookup('B'), lookup(longer(1, 2) + b'A'))),
    ('lookup_kind_missing', of_lookup(lookup('A', kind=CUT))),
    ('lookup_kind_4', of_lookup(lookup('A', kind=4))),
    ('lookup_kind_of_33_bits', of_lookup(lookup('A', kind=num(2 ** 32 + 1)))),
    ('lookup_bits_missing', of_lookup(lookup('A', bits=CUT))),
    ('lookup_bits_of_32_bits', of_lookup(lookup('A', bits=MOST))),
    ('lookup_bits_of_33_bits', of_lookup(lookup('A', bits=MOST + 1))),
    ('lookup_entries_missing', of_lookup(lookup('A', entries=CUT))),
    ('lookup_entries_of_33_bits', of_lookup(lookup('A', entries=num(2 ** 32)))),
    ('lookup_more_entries_counted', of_lookup(lookup('A', entries=num(2) + pair(0, 'x') + CUT))),
    ('pair_value_in_two_bytes', of_lookup(lookup('A', entries=[longer(5, 2) + text('x')]))),
    ('pair_name_missing', of_lookup(lookup('A', entries=[num(5) + CUT]))),
    ('pair_name_cut', of_lookup(lookup('A', entries=[num(5) + num(2) + b'x' + CUT]))),
    ('bit_value_of_65_bits', of_lookup(lookup('A', kind=2, entries=[pair(2 ** 64, 'x')]))),
    ('bit_name_length_in_two_bytes', of_lookup(lookup('A', kind=2, entries=[num(5) + longer(1, 2) + b'x']))),
    ('triplet_values_of_64_bits', of_lookup(lookup('A', kind=1, entries=[triplet(2 ** 64 - 1, 2 ** 64 - 1, 'x')]))),
    ('triplet_first_of_65_bits', of_lookup(lookup('A', kind=1, entries=[triplet(2 ** 64, 0, 'x')]))),
    ('triplet_second_of_65_bits', of_lookup(lookup('A', kind=1, entries=[triplet(0, 2 ** 64, 'x')]))),
    ('triplet_second_missing', of_lookup(lookup('A', kind=1, entries=[num(0) + CUT]))),
    ('triplet_name_missing', of_lookup(lookup('A', kind=1, entries=[num(0) + num(0) + CUT]))),
    ('fieldtype_value_of_65_bits', of_lookup(lookup('A', kind=3, entries=[fieldtype_entry(2 ** 64, 'x', 'T')]))),
    ('fieldtype_type_missing', of_lookup(lookup('A', kind=3, entries=[pair(0, 'x') + CUT]))),
    ('fieldtype_type_cut', of_lookup(lookup('A', kind=3, entries=[pair(0, 'x') + num(4) + b'NUM' + CUT]))),
    ('fieldtype_nested_mark_missing', of_lookup(lookup('A', kind=3, entries=[pair(0, 'x') + text('T') + CUT]))),
    ('fieldtype_nested_mark_2', of_lookup(lookup('A', kind=3, entries=[fieldtype_entry(0, 'x', 'T', num(2))]))),
    ('fieldtype_nested_cut', of_lookup(lookup('A', kind=3, entries=[fieldtype_entry(0, 'x', 'T', num(1) + num(1) + CUT)]))),
    ('fieldtype_nested_given', of_lookup(lookup('A', kind=3, entries=[fieldtype_entry(0, 'x', 'T', opt(text('A')))]))),
]

PGNS = [
    ('pgn_number_missing', of_pgn(pgn(CUT))),
    ('pgn_number_of_32_bits', of_pgn(pgn(MOST))),
    ('pgn_number_of_33_bits', of_pgn(pgn(MOST + 1))),
    ('pgn_id_missing', of_pgn(pgn(id=CUT))),
    ('pgn_id_length_of_33_bits', of_pgn(pgn(id=num(2 ** 32) + CUT))),
    ('pgn_type_missing', of_pgn(pgn(type=CUT))),
    ('pgn_type_3', of_pgn(pgn(type=num(3)))),
    ('pgn_type_4', of_pgn(pgn(type=num(4)))),
    ('pgn_flags_missing', of_pgn(pgn(flags=CUT))),
    ('pgn_flags_7', of_pgn(pgn(flags=num(7)))),
    ('pgn_flags_8', of_pgn(pgn(flags=num(8)))),
    ('pgn_length_missing', of_pgn(pgn(length=CUT))),
    ('pgn_length_of_32_bits', of_pgn(pgn(length=num(MOST)))),
    ('pgn_length_of_33_bits', of_pgn(pgn(length=num(MOST + 1)))),
    ('pgn_minimum_mark_missing', of_pgn(pgn(minimum=CUT))),
    ('pgn_minimum_mark_2', of_pgn(pgn(minimum=num(2)))),
    ('pgn_minimum_mark_0_in_two_bytes', of_pgn(pgn(minimum=longer(0, 2)))),
    ('pgn_minimum_missing', of_pgn(pgn(minimum=num(1) + CUT))),
    ('pgn_minimum_536870911', of_pgn(pgn(minimum=opt(num(536870911))))),
    ('pgn_minimum_536870912', of_pgn(pgn(minimum=opt(num(536870912))))),
    ('pgn_minimum_536870912_in_six_bytes', of_pgn(pgn(minimum=opt(longer(536870912, 6))))),
    ('pgn_minimum_of_33_bits', of_pgn(pgn(minimum=opt(num(2 ** 32))))),
    ('pgn_fields_missing', of_pgn(pgn(fields=CUT))),
    ('pgn_fields_of_33_bits', of_pgn(pgn(fields=num(2 ** 32)))),
    ('pgn_of_tree_1_flags_8', pack(trees=[[pgn()], [pgn(flags=num(8))], []])),
    ('pgn_of_tree_2_type_4', pack(trees=[[pgn()], [pgn()], [pgn(type=num(4))]])),
]

SETS = [
    ('set_1_mark_2', of_pgn(pgn(set1=num(2)))),
    ('set_1_count_missing', of_pgn(pgn(set1=num(1) + CUT))),
    ('set_1_count_of_33_bits', of_pgn(pgn(set1=opt(rep(2 ** 32, 0))))),
    ('set_1_start_missing', of_pgn(pgn(set1=num(1) + num(1) + CUT))),
    ('set_1_start_of_33_bits', of_pgn(pgn(set1=opt(rep(1, 2 ** 32))))),
    ('set_1_empty_with_start_0', of_pgn(pgn(set1=opt(rep(0, 0))))),
    ('set_1_sum_4294967295', of_pgn(pgn(set1=opt(rep(MOST - 1, 1))))),
    ('set_1_sum_4294967296', of_pgn(pgn(set1=opt(rep(MOST - 1, 2))))),
    ('set_1_sum_4294967296_in_start', of_pgn(pgn(set1=opt(rep(1, MOST))))),
    ('set_1_sum_of_33_bits', of_pgn(pgn(set1=opt(rep(MOST, MOST))))),
    ('set_1_counter_mark_2', of_pgn(pgn(set1=opt(rep(1, 1, num(2)))))),
    ('set_1_counter_missing', of_pgn(pgn(set1=opt(rep(1, 1, num(1) + CUT))))),
    ('set_1_counter_of_32_bits', of_pgn(pgn(set1=opt(rep(1, 1, opt(num(MOST))))))),
    ('set_1_counter_of_33_bits', of_pgn(pgn(set1=opt(rep(1, 1, opt(num(MOST + 1))))))),
    ('set_1_nested_mark_missing', of_pgn(pgn(set1=opt(rep(1, 1, NO, CUT))))),
    ('set_1_nested_mark_2', of_pgn(pgn(set1=opt(rep(1, 1, NO, num(2)))))),
    ('set_2_mark_missing', of_pgn(pgn(set2=CUT))),
    ('set_2_mark_2', of_pgn(pgn(set2=num(2)))),
    ('set_2_sum_4294967295', of_pgn(pgn(set2=opt(rep(MOST, 0))))),
    ('set_2_sum_4294967296', of_pgn(pgn(set2=opt(rep(MOST, 1))))),
    ('sets_of_4294967295_each', of_pgn(pgn(set1=opt(rep(MOST, 0)), set2=opt(rep(0, MOST))))),
]

FIELDS = [
    ('field_id_missing', of_field(field(id=CUT))),
    ('field_name_missing', of_field(field(name=CUT))),
    ('field_name_length_in_two_bytes', of_field(field(name=longer(1, 2) + b'x'))),
    ('field_type_missing', of_field(field(type=CUT))),
    ('field_type_cut', of_field(field(type=num(6) + b'NUMBE' + CUT))),
    ('field_index_missing', of_field(field(ft=CUT))),
    ('field_index_below_the_types', of_field(field(ft=num(0)))),
    ('field_index_at_the_types', of_field(field(ft=num(1)))),
    ('field_index_last_of_three', pack(types=[TYPE] * 3, trees=[[pgn(fields=[field(ft=num(2))])], [], []])),
    ('field_index_past_three', pack(types=[TYPE] * 3, trees=[[pgn(fields=[field(ft=num(3))])], [], []])),
    ('field_index_without_types', of_pgn(pgn(fields=[field(ft=num(0))]))),
    ('field_index_1_in_two_bytes', of_field(field(ft=longer(1, 2)))),
    ('field_index_of_33_bits', of_field(field(ft=num(2 ** 32)))),
    ('field_flags_missing', of_field(field(flags=CUT))),
    ('field_flags_63', of_field(field(flags=num(63)))),
    ('field_flags_64', of_field(field(flags=num(64)))),
    ('field_bits_missing', of_field(field(res_bits=CUT))),
    ('field_bits_of_32_bits', of_field(bits(MOST))),
    ('field_bits_of_33_bits', of_field(bits(MOST + 1))),
    ('field_bits_sum_4294967295', of_field(bits(1), bits(MOST - 2), bits(1), bits(0))),
    ('field_bits_sum_4294967296', of_field(bits(1), bits(MOST - 2), bits(1), bits(1))),
    ('field_bits_sum_4294967296_in_the_second', of_field(bits(MOST), bits(1), bits(MOST))),
    ('field_bits_sum_and_33_bits', of_field(bits(MOST), bits(2 ** 32))),
    ('field_bits_sum_for_each_pgn', pack(types=[TYPE], trees=[[pgn(fields=[bits(MOST)]), pgn(fields=[bits(MOST)])], [], []])),
    ('field_res_resolution_missing', of_field(field(res_resolution=CUT))),
    ('field_res_offset_cut', of_field(field(res_offset=b'\x00' * 7 + CUT))),
    ('second_field_missing', pack(types=[TYPE], trees=[[pgn(fields=num(2) + field() + CUT)], [], []])),
]

OPTIONAL = [
    ('field_unit_mark_missing', of_field(field(res_unit=CUT))),
    ('field_unit_mark_2', of_field(field(res_unit=num(2)))),
    ('field_unit_cut', of_field(field(res_unit=num(1) + num(2) + b'm' + CUT))),
    ('field_resolution_mark_2', of_field(field(resolution=num(2)))),
    ('field_resolution_cut', of_field(field(resolution=num(1) + b'\x00' * 7 + CUT))),
    ('field_offset_mark_2', of_field(field(offset=num(2)))),
    ('field_offset_missing', of_field(field(offset=num(1) + CUT))),
    ('field_spn_mark_2', of_field(field(spn=num(2)))),
    ('field_spn_of_32_bits', of_field(field(spn=opt(num(MOST))))),
    ('field_spn_of_33_bits', of_field(field(spn=opt(num(MOST + 1))))),
    ('field_continues_mark_128', of_field(field(continues=num(128)))),
    ('field_continues_cut', of_field(field(continues=num(1) + num(1) + CUT))),
    ('field_match_mark_2', of_field(field(match=num(2)))),
    ('field_match_length_in_two_bytes', of_field(field(match=num(1) + longer(1, 2) + b'1'))),
    ('field_reference_mark_2', of_field(field(reference=num(2)))),
    ('field_reference_kind_missing', of_field(field(reference=num(1) + CUT))),
    ('field_reference_kind_3', of_field(field(reference=opt(num(3) + text('A'))))),
    ('field_reference_kind_4', of_field(field(reference=opt(num(4) + text('A'))))),
    ('field_reference_name_missing', of_field(field(reference=opt(num(0) + CUT)))),
    ('field_special_values_mark_2', of_field(field(special_values=num(2)))),
    ('field_special_values_of_33_bits', of_field(field(special_values=opt(num(2 ** 32))))),
    ('field_bit_length_mark_2', of_field(field(bit_length_field=num(2)))),
    ('field_bit_length_cut', of_field(field(bit_length_field=num(1) + num(3) + b'ab' + CUT))),
    ('field_trailing_zero_mark_2', of_field(field(trailing_zero=num(2)))),
    ('field_trailing_zero_missing', of_field(field(trailing_zero=num(1) + CUT))),
    ('field_continuation_mark_missing', of_field(field(continuation=CUT))),
    ('field_continuation_mark_2', of_field(field(continuation=num(2)))),
    ('field_continuation_missing', of_field(field(continuation=num(1) + CUT))),
    ('field_continuation_sum_4294967295', of_field(bits(8, continuation=opt(num(MOST - 8))))),
    ('field_continuation_sum_4294967296', of_field(bits(8, continuation=opt(num(MOST - 7))))),
    ('field_continuation_not_added_up', of_field(bits(8, continuation=opt(num(MOST - 8))), bits(MOST - 8))),
    ('field_continuation_of_33_bits', of_field(field(continuation=opt(num(2 ** 32))))),
]

PACKS = THE_PACK + NUMBERS + TYPES + LOOKUPS + PGNS + SETS + FIELDS + OPTIONAL

# the packs that load_packs makes itself: one field type whose name takes up all the room
LARGEST = pack(types=[field_type(name=num(1048556) + bytes(1048556), flags=num(0), size=num(0), resolution=bytes(8), root='')])
MADE = [
    ('largest', LARGEST),
    ('larger_by_one_byte', LARGEST + b'\x00'),
    ('largest_of_version_2', b'\x02' + LARGEST[1:]),
    ('larger_by_one_byte_of_version_2', b'\x02' + LARGEST[1:] + b'\x00'),
]


def files():
    """Every file that this script makes, by its path below crates/."""
    made = {'load_packs/data/' + name: data for name, data in PACKS}
    assert len(made) == len(PACKS), 'two packs of one name'
    assert all(len(data) <= 4096 for data in made.values()), 'a pack longer than the buffer of load_packs'
    assert len(LARGEST) == 1048576
    made['load_packs/args'] = ''.join(name + '\n' for name, _ in PACKS).encode()
    made['load_packs/stdout'] = ''.join(decode.report(name, data) for name, data in PACKS + MADE).encode()
    made['list_pack/stdin'] = FULL
    made['list_pack/stdout'] = decode.listing(FULL)
    return made


def main():
    made = files()
    folder = os.path.join(TOP, 'load_packs', 'data')
    extra = sorted(set(os.listdir(folder)) - {name for name, _ in PACKS}) if os.path.isdir(folder) else []
    if sys.argv[1:] == ['--check']:
        def stored(path):
            try:
                return open(os.path.join(TOP, path), 'rb').read()
            except FileNotFoundError:
                return None
        wrong = [path for path in made if stored(path) != made[path]] + ['load_packs/data/' + name for name in extra]
        for path in wrong:
            print('not what make_packs.py makes: crates/' + path)
        print('%d packs, %d files, %d differ' % (len(PACKS), len(made), len(wrong)))
        sys.exit(1 if wrong else 0)
    if sys.argv[1:]:
        sys.exit(__doc__)
    os.makedirs(folder, exist_ok=True)
    for name in extra:
        os.remove(os.path.join(folder, name))
    for path, data in made.items():
        with open(os.path.join(TOP, path), 'wb') as f:
            f.write(data)
    print('%d packs, %d files' % (len(PACKS), len(made)))


if __name__ == '__main__':
    main()
