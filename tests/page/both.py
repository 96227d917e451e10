"""Tests that are played in each browser."""

from support.play import shows


def in_both(test):
    """Marks a test that is played in Chromium and in Firefox, each with rooms of its own."""
    for name in ("chromium", "firefox"):

        async def played(place, name=name):
            await test(place.inside(name))

        played.__name__ = f"{test.__name__}_in_{name}"
        shows(played)
    return test
