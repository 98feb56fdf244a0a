"""Programs of which some mass has more than 128 bits, though their loops have few states: the weights of their choices are wide. Their loops stand
in branches, in choices and in other loops, or their guards are faults; or what comes of one state by a statement without a loop is wide."""
import programs

# From 3 the walk comes to 6 with the probability 1/(1 + (q/p)^3), where q has 45 bits.
STEP = "choice 17592186044423/35184372088891 { x := x + 1; } or { x := x - 1; }"
WALK = f"x := 3; while x > 0 and x < 6 {{ {STEP} }}"
FAULTS = f"x := 3; while 6 / x > 0 {{ {STEP} }}"  # it ends at 7, and at 0 in a fault

TABLE = {
    "a loop in a branch": f"y ~ uniform(2); if y = 0 {{ {WALK} }} else {{ x := 1; }} return x;",
    "a loop in the other branch": f"y ~ uniform(3); if y > 0 {{ x := 4; }} else {{ {WALK} }} return x + y;",
    "a loop in a choice": f"choice 1/3 {{ {WALK} }} or {{ x := 7; }} return x;",
    "a loop in the second side of a choice": f"choice 3/4 {{ }} or {{ {WALK} }} return x;",
    "a loop in one of three arms": f"choose {{ 1: {{ x := 5; }} | 2: {{ {WALK} }} | 4: {{ }} }} return x;",
    "a loop in a loop": f"while z = 0 {{ {WALK} if x = 0 {{ z := 1; }} else {{ choice 1/3 {{ z := 2; }} or {{ }} }} }} return z;",
    "a loop in a loop in a loop": (
        f"while z = 0 {{ while y = 0 {{ {WALK} if x = 0 {{ choice 1/2 {{ y := 1; }} or {{ }} }} else {{ y := 2; }} }}"
        " if y = 2 { z := 1; } else { choice 1/5 { z := 2; } or { y := 0; } } } return z;"
    ),
    "a loop behind another in a branch": f"if x = 0 {{ {WALK} while y = 0 {{ choice 1/3 {{ y := x + 1; }} or {{ }} }} }} else {{ }} return y;",
    "a loop in a branch that may wait for ever": f"y ~ uniform(2); if y = 0 {{ {WALK} while x = 6 {{ skip; }} }} else {{ }} return x;",
    "a walk for ever among some states of a loop in a loop": f"while z = 0 {{ {WALK} if x = 6 {{ z := 1; }} else {{ while y < 2 {{ y := 1 - y; }} }} }} return z;",
    "an observation in a loop in a choice": f"choice 1/2 {{ {WALK} observe x = 6; }} or {{ x := 2; }} return x;",
    "three choices in a branch": (
        "if x = 0 { choice 1/4611686018427387847 { x := 1; } or { x := 2; } choice 1/4611686018427387817 { y := 1; } or { y := 2; }"
        " choice 1/4611686018427387787 { z := 1; } or { z := 2; } } else { } return x + 3 * y + 9 * z;"
    ),
    "a guard that is a fault": f"{FAULTS} return x;",
    "a guard in a choice that is a fault": f"choice 1/3 {{ {FAULTS} }} or {{ }} return x;",
    "a guard in a loop that is a fault": f"while z = 0 {{ {FAULTS} choice 1/3 {{ z := x; }} or {{ }} }} return z;",
    "a condition in a loop that is a fault": f"while z = 0 {{ {WALK} if 6 / x = 1 {{ z := 1; }} else {{ }} }} return z;",
}


def table():
    """The programs, each with what it is."""
    return [(name, programs.Reader(text).program()) for name, text in TABLE.items()]
