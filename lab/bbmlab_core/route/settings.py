"""The limits and costs of the search in one place."""

from dataclasses import dataclass


# The steps of `open_end_steps` that `route --open-ends` asks for.
OPEN_END_STEPS = 30


@dataclass(frozen=True)
class RouterSettings:
    """What the search may spend, and what it prefers. Costs are in cells that a ball newly touches."""

    # The random joins to find one path, the paths of which the cheapest is taken, and the longest leg in steps.
    path_tries: int = 300
    path_choices: int = 2
    longest_leg: int = 160
    # The places at which the first and the last bounce of a random join are tried.
    bounce_places: int = 24
    # Paths longer than this are not compared with others.
    longest_compared_path: int = 300
    # With at least so many steps to spare rows of bits join two balls, else random bounces: 200 joins of each kind were
    # measured.
    bits_spare: int = 100
    # The last bounces and the bounces before the first one that rows of bits try, and the longest leg that takes up
    # time.
    bit_ends: int = 10
    bit_bends: int = 12
    longest_detour: int = 500
    # With more steps to spare than the first number a ball wanders at once, and with more than the second if it found
    # no other path. A wander ends at a time before the goal between the last two numbers.
    most_direct_spare: int = 900
    least_wander_spare: int = 50
    wanders: int = 2
    wander_stop: tuple[int, int] = (50, 190)
    # The tries of a wander, the steps of its way for each of which it has one try more, and the ways on that it weighs
    # at each bounce.
    wander_tries: int = 160
    steps_per_wander_try: int = 20
    wander_option_count: int = 6
    # The further steps to spare of a wandering ball for each cell to its goal. A join has crowded parts on the way.
    wander_spare_per_cell: float = 0.0
    # The places that are tried for a gate: the first with all paths is taken. After the second number they are as far
    # away as they may be.
    place_tries: int = 1200
    widening_tries: int = 320
    # Of so many random spots the best are tried. A square around a spot that is all taken counts as a delay of
    # `full_square_delay`.
    spot_batch: int = 8
    best_spots: int = 2
    full_square_delay: float = 300.0
    # The steps to spare of the last input of a gate: at least the first number, at most one of the others, and more
    # after failures.
    least_spare: int = 14
    most_spare: tuple[int, ...] = (30, 45, 60)
    # A gate is given up if one of its inputs could not be led more often than this.
    most_blame: int = 10
    # If a gate found no place, and one of its inputs could not be led at least so often, the ball of this input is led
    # to open ground.
    least_blame: int = 5
    # No gate comes within so many cells of the next steps of a ball that waits for another gate: such a ball would be
    # enclosed.
    lane_cells: int = 25
    lane_steps: int = 60
    # By how much a gate comes earlier in the order of time for each step that must follow it: one of these for an
    # attempt.
    tail_weights: tuple[float, ...] = (0.0, 0.3, 0.6)
    # The cost of a mirror.
    mirror_cost: float = 12.0
    # The steps for which the way on of a waiting ball is kept free, the first that fit, and the mirrors that must have
    # room there.
    reserved_steps: tuple[int, ...] = (14, 11, 8)
    escapes: int = 3
    # The steps by which an output that no gate consumes is led away from its gate at most and at least, and the paths
    # of which the one to the emptiest place is taken.
    parking_steps: int = 140
    least_parking: int = 50
    parking_choices: int = 3
    # How often the plane may grow for one gate, by which part of its side, and up to how many times its first side.
    growths: int = 2
    growth_divisor: int = 24
    most_growth: float = 1.5
    # The steps before each ball at the start, and behind each ball at the end, in which room for a bounce is kept for
    # `join`.
    open_end_steps: int = 0
    # The part of the plane that is taken at the end at most, and the cells that a ball newly touches in a step by
    # estimate: the ways of 123 balls to the last time took 2.35 cells a step, and had no room at 0.56 of the plane.
    end_fill_share: float = 0.47
    step_cells: float = 2.6
    # How often paths to the last time are taken back for others, and the tries for each of them.
    end_rips: int = 150
    end_tries: int = 6
    # After how many failures of a ball on its way to the last time its gate moves.
    most_end_failures: int = 6
    # How often paths to gates make way for the same ball on its way to the last time.
    ways_made_per_end: int = 2
    # The most gates that are taken back out of the others' order.
    most_taken_out: int = 4
    # Failures after which an attempt with a seed and a size is given up.
    failures: int = 16
    # The paths that are taken out at most to make way for a gate: at first, and so on. The crowded spots that are
    # tried, and the steps of delay that one path less is worth.
    rip_counts: tuple[int, ...] = (2, 6)
    crowded_choices: int = 4
    delay_per_rip: float = 100.0


def open_end_settings() -> RouterSettings:
    """Returns the settings for parts of a join. Their balls go to no coils, and more is tried before a gate moves.

    With the settings for whole machines, a join of four slices of an adder took 8,043 steps, and not 5,860.
    """
    return RouterSettings(open_end_steps=OPEN_END_STEPS, wanders=4, most_blame=20, least_blame=1000)
