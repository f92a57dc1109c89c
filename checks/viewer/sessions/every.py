"""All small sessions, by the names of their cases."""

from checks.viewer.sessions import (  # noqa: F401
    answer_cases, behind_cases, beside_cases, book_cases, crash_cases, dead_use_cases, death_cases, defect_cases,
    descriptor_cases, exception_cases, freeze_cases, frozen_cases, garbage_cases, giver_cases, kept_cases, kind_cases,
    late_cases, limit_cases, lock_cases, lookup_cases, name_cases, part_cases, pool_cases, refusal_cases, slow_cases,
    slower_cases, stack_cases, state_cases, sum_cases, unread_cases)
from checks.viewer.sessions.cases import CASES, Case  # noqa: F401
