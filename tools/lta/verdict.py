"""The judgement's numbers by name. tools/build_numbers.py writes this module from numbers.txt."""

from enum import IntEnum


class Verdict(IntEnum):
    """What lta_judge and lta_judge_families answer, in the order of asking. The names are those of the C header."""

    NO_ROOM = 30
    CASE_SHORT = 1
    CASE_MARK = 2
    CASE_VERSION = 3
    CASE_HEADER = 4
    CASE_LENGTH = 5
    CASE_BRANCH = 6
    CASE_LINK = 7
    CASE_ORDER = 8
    PROPOSAL_SHORT = 9
    PROPOSAL_MARK = 10
    PROPOSAL_VERSION = 11
    PROPOSAL_LENGTH = 12
    SHARE = 13
    SHADOW_PRICE = 14
    WIDE_TOLERANCE = 15
    FAMILY_LIST = 16
    FAMILY_PARENT = 17
    FAMILY_CIRCLE = 18
    VOLUME = 21
    FAMILY_FRACTION = 28
    BALANCE = 22
    SHARE_WITHOUT_LINK = 27
    LINK_RULE = 23
    BRANCH_RULE = 24
    ZONE_PRICE = 25
    GAP_ABOVE_TOLERANCE = 26
    ACCEPTED = 0
