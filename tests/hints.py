"""Wrong texts, and what is said of each at its place on a terminal."""
import unicodedata

NEEDS_TRUTH = "a truth is wanted here, as x = 1"
ONE_PART = "a part is one whole number, and ':' behind it: 3: { .. } | 1: { .. }"
WEIGHT = "a weight is two numbers, as choice 1/2: no expression, and no brackets around it"
BEHIND_TILDE = "behind '~' stands uniform(n) alone; a coin is choice 1/2 { .. } or { .. }"
NO_TEXTS = "there are no texts: a value is a whole number"
NO_LISTS = "there are no lists: each number has a variable of its own"
OTHER_LETTERS = "a name has letters from a to z and A to Z, digits and _; other letters stand in comments alone"
SMALL_LETTERS = "reserved names have small letters"
COMMENT = "a comment begins with '#'"
SETS = "':=' sets a variable, as x := x + 1;"
NO_WORD_BEFORE = "a variable is set without a word before it: x := 1;"
NO_GROUPS = "comparisons do not group: for 1 < x < 3 write 1 < x and x < 3"
DRAW_ALONE = "a draw is a statement of its own: x ~ uniform(n);"
NO_SEMICOLON = "no ';' stands here: it ends a statement, and none is begun"
DIGITS = "a number has digits from 0 to 9 alone"
OPERAND = "a number or a name is missing before this"
SEMICOLON = "';' is missing here"
DEMANDS = "'observe' demands a truth"
OPERATOR = "an operator, or the end of the expression, is wanted here"
BEGINS_NONE = "no statement begins so: it begins with a name, or with skip, if, while, choice, choose or observe"
COUNTS = "a loop counts, while i < n { i := i + 1; }"

# A text, and what is said. What is marked stands between « and »; ¦ stands before the place of the refusal where it is another.
BAD_BYTES = [
    ("x ~ uniform(1«,» 6);", "uniform(n) takes one number, and draws 0 to n - 1: for 1 to 6 draw uniform(6), and add 1"),
    ("x ~ normal(0«,» 1);", BEHIND_TILDE),
    ("choice 0«.»5 { x := 1; } or { x := 2; }", "there are whole numbers alone: a weight of 0.5 is 5/10"),
    ("for i in 1«.».6 { x := 1; }", f"there is no range: {COUNTS}"),
    ("if x = 1 «&»& y = 2 { x := 2; }", "'and' joins two truths"),
    ("x := 6 «&» 3;", "'and' joins two truths"),
    ("if «!»x { x := 2; }", "'not' turns a truth round, and '!=' compares"),
    ("x := 2«^»3;", "there is no power: write x * x"),
    ("x := «\"»a\";", NO_TEXTS),
    ("x := «'»a';", NO_TEXTS),
    ("x := «“»hello”;", NO_TEXTS),
    ("x := «”»hello”;", NO_TEXTS),
    ("x := «„»hallo“;", NO_TEXTS),
    ("x := «‘»hello’;", NO_TEXTS),
    ("x := «’»hello’;", NO_TEXTS),
    ("x := «[»1, 2];", NO_LISTS),
    ("x := y«]»;", NO_LISTS),
    ("x := y «?» 1 : 2;", "there is no '?': write if .. { .. } else { .. }"),
    ("x := max(1«,» 2);", "there are no functions"),
    ("choose { 3: { x := 1; }«,» 1: { x := 2; } }", "'|' stands between two arms of a choose"),
    ("x«,» y := 1, 2;", "nothing is listed: each variable is set by a statement of its own"),
    ("«\ufeff»return 7;", "a byte order mark stands here: save the text as UTF-8 without one"),
    ("r«\0»e\0t\0u\0r\0n\0", "the text is in UTF-16: save it as UTF-8"),
    ("return «\0»7;", "a byte 0 stands here, which is in no text"),
    ("if x «≠» 1 { x := 1; }", "write '!='"),
    ("if x «≤» 1 { x := 1; }", "write '<='"),
    ("if x «≥» 1 { x := 1; }", "write '>='"),
    ("x := 2 «×» 3;", "write '*'"),
    ("x := 2 «·» 3;", "write '*'"),
    ("x := 6 «÷» 3;", "write '/'"),
    ("x := 6 «−» 3;", "write '-'"),
    ("x := 6 «–» 3;", "write '-'"),
    ("x «←» 3;", "':=' sets a variable"),
    ("x«\u00a0»:= 3;", "a no-break space stands here: write a plain one"),
    ("x«\u2003»:= 3;", "a wide space stands here: write a plain one"),
    ("x«\u200b» := 3;", "a space of no width stands here: leave it out"),
    ("x := «ä»öü;", OTHER_LETTERS),
    ("«π» := 3; # größer", OTHER_LETTERS),
    ("x := «$»y;", "a name begins with a letter or _"),
    ("«@»x := 3;", "a name begins with a letter or _"),
    ("x := 1 + «\\»\n  2;", "a statement may go on in the next line without a mark"),
    ("x := «`»y`;", "no number, name, symbol or comment begins with this byte"),
    ("x := «\x1b»[31m;", "no number, name, symbol or comment begins with this byte"),
]

UNEXPECTED = [
    ("x ~ «bernoulli»(1/2);", BEHIND_TILDE),
    ("c ~ «flip»(1/2);", BEHIND_TILDE),
    ("x ~ «Uniform»(6);", SMALL_LETTERS),
    ("OBSERVE «true»;", SMALL_LETTERS),
    ("«/»/ a die", COMMENT),
    ("«/»* a die */", COMMENT),
    ("«-»- a die", COMMENT),
    ("x := 3 /«/» 2;", "one '/' divides, and a comment begins with '#'"),
    ("if «:=» 3;", "'if' is a reserved name, and no variable has it"),
    ("n := 3;\nchoice 1/«n» { x := 1; } or { x := 2; }", WEIGHT),
    ("choice «(»1/2) { x := 1; } or { x := 2; }", WEIGHT),
    ("choice «{» x := 1; } or { x := 2; }", WEIGHT),
    ("choice «n»/2 { x := 1; } or { x := 2; }", WEIGHT),
    ("choose { «p»: { x := 1; } | 1: { x := 2; } }", ONE_PART),
    ("choose { 1«/»2: { x := 1; } | 1: { x := 2; } }", ONE_PART),
    ("choose { 1: { x := 1; } | «n»: { x := 2; } }", ONE_PART),
    ("choose «1»: { x := 1; } | 1: { x := 2; }", "the arms stand in one block: choose { 3: { .. } | 1: { .. } }"),
    ("choose { 2: { x := 1; } «}»", "a choose has two arms at least: | 1: { .. }"),
    ("choose { 1: { x := 1; } «or» 2: { x := 2; } }", "'|' stands between two arms of a choose"),
    ("choose {\n" + "1: { x := 1; } |\n" * 15 + "1: {} «|» 1: {} }", "a choose has at most 16 arms"),
    ("choice 1/2 { x := 1; } «|» { x := 2; }", "'|' stands between the arms of a choose; 'or' joins two truths"),
    ("choice 2/3 { x := 1; } «else» { x := 2; }", "the second block of a choice follows 'or'"),
    ("if x = 1 { x := 1; } «or» { x := 2; }", "the second block of an if follows 'else'"),
    ("if 1 < x «<» 3 { x := 1; }", NO_GROUPS),
    ("if x =«>» 3 { x := 1; }", "write '>='"),
    ("if x =«<» 3 { x := 1; }", "write '<='"),
    ("if x <«>» 3 { x := 1; }", "'!=' tells that two numbers differ"),
    ("if x !=«=» 3 { x := 1; }", "one '!=' compares"),
    ("if x =«=» 3 { x := 1; }", "one '=' compares"),
    ("x := 2 *«*» 3;", "there is no power: write x * x"),
    ("x«+»+;", SETS),
    ("x «+»= 1;", SETS),
    ("x «<»- 3;", SETS),
    ("«{» y := 1; }", "there is no block of its own: it stands behind if, else, while, choice or 'or'"),
    ("return 1; «return» 2;", "nothing follows the result"),
    ("x := 1; «}»", "no block is open here that this '}' could close"),
    ("x := 1 + 2«)»;", "no bracket is open here that this ')' could close"),
    ("x := 1;«;»", NO_SEMICOLON),
    ("if true { x := 1; }«;»", NO_SEMICOLON),
    ("if true { x := 1; «return» x;", "'}' is missing before this: a block is open here"),
    ("x := «uniform»(6);", DRAW_ALONE),
    ("return «uniform»(6);", DRAW_ALONE),
    ("«uniform»(6);", DRAW_ALONE),
    ("x ~ uniform «6»;", "the number stands in brackets: uniform(6)"),
    ("x ~ uniform(6) «+» 1;", "a draw is a statement of its own: work with x behind x ~ uniform(n);"),
    ("x := «choice» 1/2 { y := 1; } or { y := 2; }", "a statement has no value: set a variable in its blocks"),
    ("x := «if» y = 1 { z := 1; }", "a statement has no value: set a variable in its blocks"),
    ("x := 3 «|» 2;", "'|' stands between the arms of a choose; 'or' joins two truths"),
    ("x := «|»y|;", "'|' stands between the arms of a choose; 'or' joins two truths"),
    ("x := 1«e6»;", DIGITS),
    ("x := 0«x10»;", DIGITS),
    ("x := 1«_000»;", DIGITS),
    ("x := 5 «mod» 2;", "'%' is the remainder"),
    ("x := 7 «div» 2;", "'/' divides"),
    ("if x = 1 «then» { x := 2; }", "there is no 'then': a block follows the condition"),
    ("while x < 3 «do» { x := x + 1; }", "there is no 'do': a block follows the condition"),
    ("if x = 1 «xor» y = 1 { x := 2; }", "there is no 'xor': '!=' compares numbers"),
    ("let «x» = 1;", NO_WORD_BEFORE),
    ("var «x» := 1;", NO_WORD_BEFORE),
    ("int «x» := 1;", NO_WORD_BEFORE),
    ("const «x» := 1;", NO_WORD_BEFORE),
    ("set «x» := 1;", NO_WORD_BEFORE),
    ("for «i» := 1 { x := 1; }", f"there is no 'for': {COUNTS}"),
    ("repeat «3» { x := 1; }", f"there is no 'repeat': {COUNTS}"),
    ("loop «{» x := 1; }", "there is no 'loop': write while true { .. }"),
    ("do «{» x := 1; }", "there is no 'do': a loop tests first, while .. { .. }"),
    ("if x = 1 { x := 2; } elif «x» = 2 { x := 3; }", "there is no 'elif': write else { if .. { .. } }"),
    ("if x = 1 { x := 2; } elsif «x» = 2 { x := 3; }", "there is no 'elsif': write else { if .. { .. } }"),
    ("if x = 1 { x := 2; } elseif «x» = 2 { x := 3; }", "there is no 'elseif': write else { if .. { .. } }"),
    ("print«(»x);", "what a program prints is its result: return x;"),
    ("def «f»() { x := 1; }", "there are no functions"),
    ("fn «f»() { x := 1; }", "there are no functions"),
    ("function «f»() { x := 1; }", "there are no functions"),
    ("import «random»;", "a program is one text"),
    ("include «random»;", "a program is one text"),
    ("assert «x» = 1;", DEMANDS),
    ("assume «x» = 1;", DEMANDS),
    ("condition«(»x = 1);", DEMANDS),
    ("flip «c»;", "a coin is c ~ uniform(2); or choice 1/2 { .. } or { .. }"),
    ("sample «x»;", "a draw is x ~ uniform(n);"),
    ("while true { break«;» }", "there is no 'break': the condition of a loop ends it"),
    ("if x = 1 { pass«;» }", "an empty statement is skip;"),
    ("switch «x» { x := 1; }", "there is no 'switch': write if .. { .. } else { .. }"),
    ("match «x» { x := 1; }", "there is no 'match': write if .. { .. } else { .. }"),
    ("return x «:=» 3;", "':=' sets a variable in a statement of its own, and '=' compares"),
    ("x := 1«»\n¦y := 2;", SEMICOLON),
    ("x := 1;\nx := x + «;»", OPERAND),
    ("x := 1 + «;»\r\nreturn x;\r", OPERAND),
]

# More of what a first text may have.
MORE = [
    ("if (x = 1 «{» x := 2; }", "')' is missing before this"),
    ("x := (1 + 2«;»", "')' is missing before this"),
    ("x ~ uniform(6«;»", "')' is missing before this"),
    ("x := (1 + 2)«)»;", "no bracket is open here that this ')' could close"),
    ("x := 1; # begun\n«}»", "no block is open here that this '}' could close"),
    ("if x = 1 { x := 2«» ¦}", SEMICOLON),
    ("x ~ uniform(6)«» ¦y ~ uniform(6);", SEMICOLON),
    ("skip«»\n¦x := 1;", SEMICOLON),
    ("skip«» ¦x;", SEMICOLON),
    ("x := y«» ¦z;", SEMICOLON),
    ("observe x = 1«»\n¦y := 2;", SEMICOLON),
    ("x := 5«»\n¦If := 3;", SEMICOLON),
    ("while «{» x := 1; }", OPERAND),
    ("if x = «{» x := 1; }", OPERAND),
    ("observe«;»", OPERAND),
    ("return«;»", OPERAND),
    ("x := «;»", OPERAND),
    ("x := not«;»", OPERAND),
    ("x := 1 + «*» 2;", OPERAND),
    ("x := «+» 1;", OPERAND),
    ("x := 3 % «%» 2;", OPERAND),
    ("x ~ uniform(«)»;", OPERAND),
    ("x ~ uniform«;»", "the number stands in brackets: uniform(6)"),
    ("x ~ «;»", BEHIND_TILDE),
    ("x ~ «6»;", BEHIND_TILDE),
    ("x «=»= 1;", "':=' sets a variable, '=' compares"),
    ("x «=»: 1;", "':=' sets a variable, '=' compares"),
    ("x«:» = 1;", SETS),
    ("set «=» 1;", "':=' sets a variable, '=' compares"),
    ("x := y «:=» 1;", "':=' sets a variable in a statement of its own, and '=' compares"),
    ("x «1»;", "':=' is missing before this"),
    ("x «y»;", "':=' is missing before this"),
    ("x«;»", SETS),
    ("x := 3; y\n«return» x;", SETS),
    ("«5» := x;", BEGINS_NONE),
    ("«(»x) := 1;", BEGINS_NONE),
    ("«else» { x := 1; }", BEGINS_NONE),
    ("«or» { x := 1; }", BEGINS_NONE),
    ("x := 1 «2»;", OPERATOR),
    ("x := true «false»;", OPERATOR),
    ("x := 2«x»;", DIGITS),
    ("if x = 1 «x» := 2;", "'{' is missing before this"),
    ("if (x = 1) «x» := 2; else x := 3;", "'{' is missing before this"),
    ("choice 1/2 { x := 1; } or «x» := 2;", "'{' is missing before this"),
    ("choose { 3: «x» := 1; | 1: x := 2; }", "'{' is missing before this"),
    ("if x = 1 { x := 2; } else«;»", "a block stands in braces: { .. }"),
    ("while x < 3«:» x := x + 1;", "a block stands in braces: { .. }"),
    ("if x = 1 { x := 2; } else«:» x := 3;", "a block stands in braces: { .. }"),
    ("if x = 1 «then» x := 2;", "there is no 'then': a block follows the condition"),
    ("choice 1/2 { x := 1; }\n«return» x;", "a choice has a second block: or { .. }"),
    ("choice 1/2 { x := 1; } «{» x := 2; }", "there is no block of its own: it stands behind if, else, while, choice or 'or'"),
    ("choose { 3 «{» x := 1; } | 1 { x := 2; } }", ONE_PART),
    ("choose { «x» := 1; }", ONE_PART),
    ("Return «x»;", SMALL_LETTERS),
    ("IF «x» = 1 { x := 2; }", SMALL_LETTERS),
    ("whlie «x» < 3 { x := x + 1; }", "'whlie' begins no statement of this form; did you mean 'while'?"),
    ("obsreve «x» = 1;", "'obsreve' begins no statement of this form; did you mean 'observe'?"),
    ("x := «uniform»(6) + 1;", DRAW_ALONE),
    ("x := abs«(»y);", "there are no functions"),
    ("f«(»x);", "there are no functions"),
]

KINDS = [
    ("¦while x + y < 3 and («x» or y > 2) { x := 1; y := 1; }", NEEDS_TRUTH),
    ("x := 1;\n¦if x = 1 or «2» { x := 2; }", NEEDS_TRUTH),
    ("x := 1;\n¦x := x + «true»;", "a number is wanted here"),
    ("«x» := 1 and 2;", "a number is wanted; if a < b { x := 1; } else { x := 0; } keeps a truth"),
]

ROWS = [(code, text, said) for code, rows in ((2, BAD_BYTES), (5, UNEXPECTED), (5, MORE), (7, KINDS)) for text, said in rows]

REASONS = {2: "bad byte", 5: "unexpected", 7: "kind mismatch"}


def seen(letter):
    """A character as it is shown."""
    return "?" if unicodedata.category(letter) in ("Cc", "Cf", "Zl", "Zp") else letter


def screen_of(code, row, said):
    """The text of a row, and what is shown of it in the file p.gcl."""
    front, marked, back = "".join(row.split("¦")).replace("»", "«").split("«")
    refused = row.replace("«", "").replace("»", "").split("¦")[0] if "¦" in row else front
    text = front + marked + back + "\nreturn x;\n"
    before = front[front.rfind("\n") + 1 :]
    line = before + (marked + back + "\n").split("\n")[0].rstrip("\r")
    return text, f"""error E{code} {REASONS[code]} at {len(refused.encode())}
  p.gcl, line {front.count(chr(10)) + 1}, column {len(before.encode()) + 1}
    {"".join(map(seen, line))}
    {" " * len(before)}{"^" * max(len(marked), 1)}
  {said}
  'zar help E{code}' says more
"""
