"""Texts of a capture, most of them a stranger's, as the page shows them."""

from viewer.terminal import is_sign

# The most characters of a text on the page.
MOST = 400


def pieces_of(value: object) -> list[tuple[str, bool]]:
    """A value as pieces of text, each with whether it is the number of an invisible character."""
    shown = "" if value is None else str(value)
    if len(shown) > MOST:
        shown = f"{shown[:MOST]}… ({len(shown):,} characters)"
    if shown.isprintable():  # so it has no such character
        return [(shown, False)]
    return [(f"U+{ord(one):04X}", True) if is_sign(one) else (one, False) for one in shown]


def title_of(value: object) -> str:
    """The text of a title, which has no markup: invisible characters are left out."""
    return "".join(one for one in str(value)[:200] if not is_sign(one))


# The user ids of Android: each user of the device has as many, and of these so many are those of apps.
OF_ONE_USER, APPS, ISOLATED = 100_000, range(10_000, 20_000), range(99_000, 100_000)


def user_name(uid: int | None) -> str:
    """What Android's `ps` calls a user id: `u0_a123` of an app, `u0_i7` of an isolated process; "" for others."""
    user, of_user = divmod(uid or 0, OF_ONE_USER)
    for letter, ids in ("a", APPS), ("i", ISOLATED):
        if of_user in ids:
            return f"u{user}_{letter}{of_user - ids.start}"
    return ""
