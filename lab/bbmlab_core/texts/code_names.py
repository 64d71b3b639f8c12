"""The names of the codes of refusals, as the program's sources have them (`RefusalCode`)."""

CODE_NAMES = {
    1: "no_form",
    2: "past_limit",
    3: "unknown_name",
    4: "defined_twice",
    5: "consumed_twice",
    6: "out_of_order",
    7: "taken_cell",
    8: "misplaced_box",
    9: "not_local",
    10: "no_place",
    11: "something_missing",
    12: "text_cut",
}
