"""Edits that show at once: what a client shows is the slots held, with such edits laid over them
until the slots show them."""
from .common import BOARD, CARDS, back, begun, case, push, replace

SHOWN = ["milk", "tea"]


def optimistic(play, *patch, **more):
    return play.edit(*patch, optimistic=True, **more)


@case(
    "An edit shows at once. Its `done` leaves it laid over the slots until they have its "
    "revision; it never shows twice.",
    needs="optimistic",
)
def an_edit_shows_until_the_slots_have_its_revision(driver):
    play = begun(driver)
    key = optimistic(play, push("bread"))
    play.shows([[[*SHOWN, "bread"]]])
    play.holds(CARDS, [[SHOWN]], 1)
    play.asked("edit")
    play.draw(1)
    play.ended(key, done=2)
    play.holds(CARDS, [[SHOWN]], 1)
    play.shows([[[*SHOWN, "bread"]]])
    play.draw(1)
    play.holds_present(CARDS)
    play.shows([[[*SHOWN, "bread"]]])


@case(
    "In an edit that is laid over the slots, `-` is the place behind the last element as it is "
    "then.",
    needs="optimistic",
)
def an_edit_at_the_end_is_laid_over(driver):
    play = begun(driver, ["/cards", {"size": "/cards"}])
    optimistic(play, push("a"), push("b"))
    optimistic(play, push("c"), {"op": "move", "from": "/cards/0", "path": "/cards/-"})
    optimistic(play, {"op": "copy", "from": "/cards/0", "path": "/cards/-"})
    play.shows([[["tea", "a", "b", "c", "milk", "tea"]], [6]])
    play.talk()
    play.holds_present(["/cards", {"size": "/cards"}])
    play.shows([[["tea", "a", "b", "c", "milk", "tea"]], [6]])


@case(
    "Another client's edit comes below those that wait: they are laid over the new slots.",
    needs="optimistic",
)
def an_edit_is_laid_over_newer_slots(driver):
    play = begun(driver)
    optimistic(play, push("bread"))
    play.relay.edit(push("salt"))
    play.draw(1)
    play.shows([[[*SHOWN, "salt", "bread"]]])
    play.talk()
    play.shows([[[*SHOWN, "salt", "bread"]]])


@case("A refused edit is taken off, and those behind it stay.", needs="optimistic")
def a_refused_edit_is_taken_off(driver):
    play = begun(driver)
    optimistic(play, {"op": "remove", "path": "/cards/0"}, {"op": "test", "path": "/n", "value": 2})
    optimistic(play, push("bread"))
    play.shows([[["tea", "bread"]]])
    play.asked("edit", "edit")
    play.draw(1)
    play.shows([[[*SHOWN, "bread"]]])


@case(
    "An edit whose answer was lost is taken off. If it was done, it comes as any other edit.",
    needs="optimistic",
)
def an_unknown_edit_is_taken_off(driver):
    play = begun(driver)
    optimistic(play, push("bread"))
    play.asked("edit")
    play.cut()
    play.shows([[SHOWN]])
    back(play)
    play.talk()
    play.shows([[[*SHOWN, "bread"]]])


@case(
    "A done edit whose patch was lost with its connection stays laid over until the slots have "
    "its revision.",
    needs="optimistic",
)
def a_done_edit_stays_over_a_lost_connection(driver):
    play = begun(driver)
    optimistic(play, push("bread"))
    play.asked("edit")
    play.draw(1)
    play.cut()
    play.shows([[[*SHOWN, "bread"]]])
    back(play)
    play.talk()
    play.holds_present(CARDS)
    play.shows([[[*SHOWN, "bread"]]])


@case(
    "An edit that was done in another epoch is gone with its document: slots of the new epoch "
    "take it off.",
    needs="optimistic",
)
def a_done_edit_ends_with_its_run(driver):
    play = begun(driver)
    optimistic(play, push("bread"))
    play.asked("edit")
    play.draw(1)
    play.cut()
    play.relay.restart(BOARD, epoch=8, rev=1)
    back(play)
    play.talk()
    play.holds_present(CARDS)
    play.shows([[SHOWN]])


@case("An edit of which an operation does not fit shows nothing of it.", needs="optimistic")
def an_edit_that_does_not_fit_shows_nothing(driver):
    play = begun(driver)
    optimistic(play, push("a"), {"op": "remove", "path": "/cards/9"})
    play.shows([[SHOWN]])
    optimistic(play, push("b"))
    play.shows([[[*SHOWN, "b"]]])
    play.talk()
    play.shows([[[*SHOWN, "b"]]])


@case("For a `test` `true` is not 1, and the order of members is nothing.", needs="optimistic")
def a_test_compares_values(driver):
    play = begun(driver, document={"cards": [1, {"a": 1, "b": [False]}]})
    for value, path in [(True, "/cards/0"), (0, "/cards/1/b/0"), ({"a": 1}, "/cards/1")]:
        optimistic(play, {"op": "test", "path": path, "value": value}, push("no"))
    same = {"b": [False], "a": 1}
    optimistic(play, {"op": "test", "path": "/cards/1", "value": same}, push("yes"))
    play.shows([[[1, {"a": 1, "b": [False]}, "yes"]]])


@case("A value that is copied from elsewhere shows when its patch comes.", needs="optimistic")
def a_value_from_elsewhere_is_not_shown(driver):
    play = begun(driver)
    key = optimistic(play, {"op": "copy", "from": "/n", "path": "/cards/0"})
    play.shows([[SHOWN]])
    play.asked("edit")
    play.draw(1)
    play.ended(key, done=2)
    play.shows([[SHOWN]])
    play.draw(1)
    play.shows([[[1, *SHOWN]]])


@case(
    "An edit that does not fit the slots is left over them: it shows once it fits later ones.",
    needs="optimistic",
)
def an_edit_shows_once_it_fits(driver):
    play = begun(driver)
    key = optimistic(play, replace("/cards/2", "bread"))
    play.shows([[SHOWN]])
    for operation, cards in [
        (push("salt"), [*SHOWN, "bread"]),
        ({"op": "remove", "path": "/cards/2"}, SHOWN),
        (push("oil"), [*SHOWN, "bread"]),
    ]:
        play.relay.edit(operation)
        play.draw(1)
        play.shows([[cards]])
    play.talk()
    play.ended(key, done=5)
    play.shows([[[*SHOWN, "bread"]]])


@case(
    "Slots of another epoch leave an edit laid over that was not done: it goes to that epoch.",
    needs="optimistic",
)
def an_edit_that_waits_is_laid_over_another_run(driver):
    play = begun(driver)
    play.cut()
    key = optimistic(play, push("bread"))
    # A client may refuse it at once.
    waits = ["bread"] if play.end_of(key) is None else []
    play.relay.restart({"cards": ["other"]}, epoch=8)
    play.accept()
    play.heard(1)
    play.draw(2)
    play.holds_present(CARDS)
    play.shows([[["other", *waits]]])
    play.talk()
    play.shows([[["other", *waits]]])


@case(
    "An edit with a base that is sent again stays laid over while the connection is lost, until it "
    "is answered.",
    needs="optimistic",
)
def an_edit_that_is_sent_again_stays_laid_over(driver):
    play = begun(driver)
    key = optimistic(play, push("bread"), base=1)
    play.driver.look()
    play.driver.said.clear()
    play.cut()
    waits = ["bread"] if play.end_of(key) is None else []
    play.shows([[[*SHOWN, *waits]]])
    play.accept()
    play.shows([[[*SHOWN, *waits]]])
    play.talk()
    play.holds_present(CARDS)
    play.shows([[[*SHOWN, *waits]]])


@case(
    "The revision of a `done` is of the epoch of its connection: slots of another epoch do not "
    "show the edit, also if their revision is higher.",
    needs="optimistic",
)
def slots_of_another_run_do_not_show_an_edit(driver):
    play = begun(driver, rev=9)
    play.cut()
    play.relay.restart(BOARD, epoch=8)
    back(play)
    optimistic(play, push("bread"))
    play.heard()
    play.draw(len(play.relay.replies))
    play.holds(CARDS, [[SHOWN]], 9)
    play.shows([[[*SHOWN, "bread"]]])
    play.talk()
    play.holds_present(CARDS)
    play.shows([[[*SHOWN, "bread"]]])


@case(
    "An edit touches a slot or none by the view that is held, and not by one that is asked for.",
    needs="optimistic",
)
def an_edit_touches_the_view_that_is_held(driver):
    play = begun(driver)
    optimistic(play, push("bread"))
    play.watch(["/n"])
    play.heard(1)
    play.draw(1)
    play.holds(CARDS, [[SHOWN]], 1)
    play.shows([[[*SHOWN, "bread"]]])
    play.draw(1)
    play.holds_present(CARDS)
    play.shows([[[*SHOWN, "bread"]]])
    play.talk()
    play.shows([[1]])


@case(
    "A size stays as it is if a member is added that is there, and also if the slots do not tell "
    "whether it is.",
    needs="optimistic",
)
def an_edit_over_a_member_leaves_the_size(driver):
    size, ann = {"size": "/players"}, "/players/ann"
    play = begun(driver, [size])
    optimistic(play, {"op": "add", "path": ann, "value": 4})
    play.shows([[1]])
    play.talk()
    play.watch([size, ann])
    play.talk()
    optimistic(play, {"op": "add", "path": ann, "value": 5})
    play.shows([[1], [5]])
    play.talk()
    play.holds_present([size, ann])
    play.shows([[1], [5]])


@case(
    "`resumed` with `nothing` takes off an edit that was done: nothing is on its way that could "
    "show it.",
    needs="optimistic",
)
def a_resume_with_nothing_takes_off_what_was_done(driver):
    play = begun(driver)
    key = optimistic(play, push("bread"))
    play.asked("edit")
    play.draw(1)
    play.ended(key, done=2)
    play.cut()
    # The epoch was given twice, and the room is at the revision that is held.
    play.relay.restart(BOARD, epoch=7, rev=1)
    [request] = back(play)
    play.draw()
    play.holds(CARDS, [[SHOWN]], 1)
    if request["do"] == "resume":
        play.shows([[SHOWN]])
