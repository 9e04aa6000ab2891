"""What to write instead: the patterns by which a refused source is explained to a person.

PATTERNS are looked for in a statement's text without blanks and in capitals, in which characters of
constants are `~`; the caret stands at the group `at`, or where the match begins. LINES are looked
for in a line as it is. FINDERS take more than a pattern. The first that fits, of those that may come
with the code, is told. `.ci/hints.py` tries each of them, by its name.
"""

import difflib
import re

from source import FUNCTIONS, NAME, closing, split_outside

STATEMENTS = (
    "PROGRAM INTEGER DIMENSION PARAMETER CONTINUE STOP END PRINT DO IF".split()
)
LABELLED = "DO 10 I = 1, N closes with a line 10 CONTINUE, its label in columns 1 to 5"
ONE_IF = "an IF does one assignment, IF (I .LT. 5) K = I: give each assignment an IF of its own"
REPLACED = {
    "MOD": "MOD(I, 2) is I - 2*(I/2)", "MODULO": "MODULO(I, 2) is I - 2*(I/2) where I is not below 0",
    "ABS": "ABS(K) is MAX(K, -K)", "IABS": "IABS(K) is MAX(K, -K)", "IDIM": "IDIM(K, L) is MAX(K - L, 0)", "DIM": "DIM(K, L) is MAX(K - L, 0)",
    "MAX0": "MAX0 is MAX", "MIN0": "MIN0 is MIN", "AMAX1": "AMAX1 is MAX", "AMIN1": "AMIN1 is MIN",
    "SUM": "add up in a loop, K = K + A(I), which is dealt out", "MAXVAL": "write a loop, K = MAX(K, A(I))", "MINVAL": "write a loop, K = MIN(K, A(I))",
    "PRODUCT": "write a loop, K = K*A(I)", "SIZE": "use the constant of its bound",
    "MERGE": "an IF leaves an assignment out, IF (I .LT. 5) K = I", "ISHFT": "a shift to the left by one is K*2",
}
INTRINSICS = (
    "SQRT INT NINT FLOAT REAL DBLE ISIGN SIGN EXP LOG SIN COS TAN ATAN IFIX SNGL CHAR ICHAR LEN INDEX "
    "IAND IOR IEOR NOT BTEST IBSET IBCLR ISHFTC COUNT ANY ALL MATMUL TRANSPOSE RESHAPE FLOOR CEILING HUGE"
).split()
AFFINE = "a subscript or a side of a comparison is a sum of multiples of loop variables and constants"
COMPARISONS = r"\.(LT|LE|EQ|GE|GT|NE)\."
COLUMNS = "a statement begins in column 7, behind six blanks; columns 1 to 5 are for its label"

# name, codes, pattern, what to write
PATTERNS = [
    ("end-do", "F1 F2", r"ENDDO\w*$", f"there is no END DO: {LABELLED}"),
    ("do-while", "F1 F2", r"DOWHILE\(", f"there is no DO WHILE: trips are counted; {LABELLED}"),
    ("end-if", "F1 F2", r"(ENDIF|ELSE|ELSEIF\(.*)$", f"there is no block IF, ELSE or END IF: {ONE_IF}"),
    ("block-if", "F1 F2", r"IF\(.*\)(?P<at>THEN)$", f"there is no block IF: {ONE_IF}"),
    ("type", "F1 F2", r"(REAL|DOUBLEPRECISION|COMPLEX)(?!\w*=)",
     "all values are INTEGER: declare INTEGER, and count in thousandths, say, where fractions are needed"),
    ("logical-type", "F1 F2", r"LOGICAL(?!\w*=)", "all values are INTEGER: declare INTEGER, and keep 1 or 0"),
    ("character-type", "F1 F2", r"CHARACTER(?!\w*=)", "all values are INTEGER, and text stands in a PRINT alone: PRINT *, 'K', K"),
    ("implicit", "F1 F2", r"IMPLICIT",
     "leave it out: a name that no INTEGER statement has is INTEGER where it begins with I to N, and else refused"),
    ("concurrent", "F1 F2", r"DOCONCURRENT\(", f"a loop is dealt out where that is safe, with no word for it; {LABELLED}"),
    ("parameter", "F1 F2", r"PARAMETER(?P<at>[A-Z]\w*=)", "constants stand in parentheses: PARAMETER (N = 4, M = 2*N)"),
    ("allocate", "F1 F2 F4", r"(DE)?ALLOCATE\(|(ALLOCATABLE|POINTER|TARGET)(?!\w*=)", "an array has its bounds where it is declared, in constants: INTEGER A(N) behind PARAMETER (N = 8)"),
    ("include", "F1 F2", r"INCLUDE'|USE[A-Z]\w*$", "one program stands in a source: write what would be included in place"),
    ("first-value", "F1 F2 F4", r"INTEGER([A-Z][^=:]*,)?(?P<at>[A-Z]\w*=)", "a declaration gives no value: write INTEGER N, and N = 4 as a statement or PARAMETER (N = 4)"),
    ("kind", "F1 F2 F4 F12", r"INTEGER(?P<at>\*\d|\(KIND|\(\d+\)(::)?[A-Z])", "write INTEGER alone: it has 64 bits"),
    ("colons", "F1 F2 F4", r"[A-Z0-9,()*=:]*?(?P<at>::)",
     "leave :: out: INTEGER N, A(0:9), and constants apart, PARAMETER (N = 4)"),
    ("output", "F1 F2", r"WRITE\(", "output is PRINT *, 'TEXT', K, A: a line of items with one blank in front of each"),
    ("print", "F1 F2", r"PRINT(?!\*)", "output is PRINT *, 'TEXT', K, A: a star and a comma, and no format"),
    ("input", "F1 F2", r"(READ|OPEN|CLOSE|INQUIRE|REWIND|BACKSPACE|ENDFILE|FORMAT)(?!\w*=)",
     "there is no input, no file and no format: PARAMETER (N = 4) names a constant, and a word N=8 of the command gives it another value"),
    ("call", "F1 F2 L5", r"(CALL|RETURN|SUBROUTINE|FUNCTION|INTEGERFUNCTION|EXTERNAL|INTRINSIC|ENTRY)(?!\w*=)",
     "there are no subroutines: write their statements in place"),
    ("jump", "F1 F2", r"(IF\(.*\))?(?P<at>GOTO|ASSIGN\d|EXIT$|CYCLE$|PAUSE)",
     "there are no jumps: a loop does all its trips, and IF (I .LT. 5) K = I leaves an assignment out"),
    ("arithmetic-if", "F1 F2", r"IF\(.*\)(?P<at>\d+,\d+,\d+)$", "there are no jumps: " + ONE_IF),
    ("data", "F1 F2", r"DATA(?!\w*=)", "there is no DATA: in its place write an assignment in front of the first loop, K = 1; what isn't stored is 0"),
    ("equivalence", "F1 F2", r"EQUIVALENCE\(", "each variable has memory of its own: give what is equivalent one name"),
    ("common", "F1 F2", r"(COMMON|SAVE|BLOCKDATA)(?!\w*=)",
     "leave it out: each variable is seen by the whole program, and keeps its value"),
    ("comment", "F1 F2", r"[^!]*(?P<at>!)", "a comment is a line of its own, with C or * in column 1"),
    ("quotes", "F1 F2", r'[^"]*(?P<at>")', "text stands between apostrophes: PRINT *, 'K', K"),
    ("do", "F1 F2", r"(?P<at>DO\d+=|(?!DO\d)[A-Z]{1,3}\d+[A-Z]\w*=)[^(]*,", "a DO has a label, a variable and bounds: DO 10 I = 1, 9"),
    ("do-comma", "F1 F2 F3 F4", r"DO\d+,?[A-Z]\w*=(?P<at>[^,]*)$", "a comma stands between a DO's bounds: DO 10 I = 1, 9"),
    ("semicolon", "F1 F2", r"[^;]*(?P<at>;)", "one statement stands on a line"),
    ("ampersand", "F1 F2", r"[^&]*(?P<at>&)",
     "a statement goes on in the next line by any character but a blank or 0 in column 6 of that line"),
    ("store", "F1 F2", r"[A-Z]\w*(\(.*?\))?(?P<at>[-+*/:]=|\+\+$|--$)", "a value is stored by = alone: K = K + 1"),
    ("not-equal", "F1 F2", r".*?(?P<at>\.NE\.|/=|<>)",
     "there is no .NE.: write two IFs, one with .LT. and one with .GT."),
    ("and", "F1 F2", r"IF\(.*?(?P<at>\.AND\.)",
     "an IF has one comparison: let the loop's bounds say the other, or keep both in a number: L = 1, IF (I .LE. 3) L = 0, IF (I .GE. 7) L = 0, and K = L*I + (1-L)*K"),
    ("or", "F1 F2", r"IF\(.*?(?P<at>\.OR\.)", "an IF has one comparison: write two IFs with this assignment, where it does not read what it stores"),
    ("not", "F1 F2", r"IF\(.*?(?P<at>\.NOT\.)", "write the opposite comparison: .GE. for .LT., .GT. for .LE., and the other way round"),
    ("logical", "F1 F2", r".*?(?P<at>\.(AND|OR|NOT|EQV|NEQV|TRUE|FALSE)\.)",
     "there are no logical values: keep 1 or 0, and compare it by a product: K = L*I + (1-L)*K"),
    ("value", "F1 F2", rf"(?!IF).*?(?P<at>{COMPARISONS})", "a comparison stands in an IF alone: K = 0, and IF (I .EQ. 5) K = 1"),
    ("no-parentheses", "F1 F2", rf"IF(?P<at>[A-Z0-9].*?{COMPARISONS})", "a comparison stands in parentheses: IF (I .LT. 5) K = I"),
    ("else", "F1 F2", r"IF\(.*\).*?=.*?(?P<at>ELSE)[A-Z]\w*(\(.*?\))?=", f"there is no ELSE: {ONE_IF}"),
    ("if-other", "F1 F2", r"IF\(.*\)(?P<at>STOP$|CONTINUE$|RETURN$|CALL|WRITE\(|READ[*(]|DO\d|IF\()", "an IF has one assignment and nothing else: IF (I .LT. 5) K = I"),
    ("if-print", "F1 F2", r"IF\(.*\)(?P<at>PRINT\*)", "a PRINT stands under no IF: let the bounds of its loop say when it comes"),
    ("double-parentheses", "F1 F2", r"IF\((?P<at>\()(?=[^()]*(\([^()]*\)[^()]*)*\.(LT|LE|EQ|GE|GT)\.)", "one pair of parentheses stands round a comparison: IF (I .LT. 5) K = I"),
    ("implied-do", "F1 F2", r"PRINT\*,.*?(?P<at>\([^()]*(\([^()]*\)[^()]*)*,[A-Z]\w*=)",
     "a PRINT has no loop in it: print the whole array, PRINT *, A, or one element a line in a loop"),
    ("item-comma", "F1 F2", r"PRINT\*,(?:'~*'|[^'])*?(?P<at>(?<=[A-Z0-9)])'|(?<=')[A-Z0-9(])", "a comma stands between two items: PRINT *, 'K', K"),
    ("print-comma", "F1 F2", r"PRINT\*(?P<at>[^,])", "a comma stands behind the star: PRINT *, K"),
    ("section", "F1 F2 F4", r"(?!INTEGER|DIMENSION).*?(?<![A-Z0-9])[A-Z][A-Z0-9]*\([^()=]*(?P<at>:)", "there are no parts of arrays: write a loop over the elements, DO 10 I = 1, 3 and 10 A(I) = 0"),
    ("comparison", "F1 F2", r"IF\(.*?(?P<at>==|>=|<=|<|>)", "a comparison is written .LT., .LE., .EQ., .GE. or .GT."),
    ("power", "F1 F2", r".*?(?P<at>\*\*|\^)", "there is no **: K*K"),
    ("real", "F1 F2", r".*?(?<![A-Z0-9])(?P<at>\d+\.\d*|\.\d+|\d+[ED][+-]?\d+)(?![A-Z])",
     "all values are whole: count in thousandths, say, where fractions are needed"),
    ("long-label", "F1 F2", r"DO(?P<at>0*[1-9]\d{5,}|0+),?[A-Z]\w*=", "a label is 1 to 99999"),
    ("end-name", "F1 F2 L4", r"END(PROGRAM|[A-Z]+)", "the last line is END alone"),
    ("stop-code", "F1 F2", r"STOP(?P<at>[\d'].*)$", "STOP stands alone, directly in front of END: leave it out"),
    ("stop", "F1", r"STOP", "STOP stands directly in front of END alone, outside all loops: leave it out"),
    ("underscore", "F1 F2", r".*?(?P<at>[A-Z0-9]*_\w*)", "a name has letters and digits alone, at most 6 of them"),
    ("bracket", "F1 F2", r".*?(?P<at>[\[\]{}])", "subscripts stand in ( and )"),
    ("character", "F1 F2", r"[A-Z0-9=+*/(),.:'~-]*(?P<at>[^A-Z0-9=+*/(),.:'~-])", "this character has no meaning here"),
    ("sign", "F1", r".*?[-+*/](?P<at>[-+*/])", "a sign stands in front of a first term alone: K = 2*(-3)"),
    ("large-number", "F11", r".*?(?P<at>\d{19,})", "a number is at most 9223372036854775807"),
    ("assign-twice", "F1", r"[A-Z0-9]+(\(.*?\))?=[^=]*(?P<at>=)", "a statement stores one value: K = 1 and L = 1 are two"),
]

# name, codes, pattern, what to write
LINES = [
    ("glued-plan", "L2 L3 L4 L5 F1", r" {6,}END *(?P<at>SPMD PLAN)",
     "the source's last line has no line end, so the plan begins in it: add one to the source"),
    ("tab", "L1", r"[^\t]*(?P<at>\t)", f"this is a tab: write blanks; {COLUMNS}"),
    ("byte", "L1", r"[ -~]*(?P<at>[^ -~])", "this byte is no character from a blank to a tilde"),
    ("directive", "L2 L3", r"\s*(?P<at>!?\$ *(?i:DIST))", "a directive has C$DIST in columns 1 to 6: C$DIST A(BLOCK)"),
    ("comment-line", "L2 L3 F1", r"\s*(?P<at>!|//|#)", "a comment is a line with C or * in column 1"),
    ("zero-label", "L2", r" *(?P<at>0[ 0]*)", "a label is 1 to 99999"),
    ("free-form", "L2 L3", r" {0,5}(?P<at>[A-Za-z'].*)", COLUMNS),
    ("label-field", "L2", r"[ \d]{0,4}(?P<at>[^ \d])", "columns 1 to 5 have a label or blanks: " + COLUMNS),
    ("label-place", "L3", r" {0,4}(?P<at>\d)[ \d]*[^ 0]", f"column 6 goes on with the line in front, and a label ends in column 5; {COLUMNS}"),
    ("plan-behind", "L5", r"(?P<at>SPMD PLAN)", "a plan behind END is for `verify` and for `run --plan given`"),
    ("goes-on", "L3", r" {5}(?P<at>[^ 0])", f"column 6 is no blank, so this line goes on with one above, and there is none to go on with; {COLUMNS}"),
    ("unit-behind", "L5", r" *(?P<at>(?i:SUBROUTINE|FUNCTION|INTEGER +FUNCTION|PROGRAM))",
     "there are no subroutines, and one program stands in a source"),
]


def names_in(code):
    """The names of a text, each with its place."""
    for it in re.finditer(r"(?<![A-Z0-9.])[A-Z][A-Z0-9]*(?![A-Z0-9]*\.(?<=[A-Z]\.))", code):
        yield it[0], it.start()


def reads(code):
    """Each place in a statement that is a name, with the subscripts behind it, or None."""
    for name, at in names_in(code):
        end = at + len(name)
        if code[end : end + 1] == "(":
            close = closing(code, end)
            if close > 0:
                yield name, at, split_outside(code[end + 1 : close])
                continue
        yield name, at, None


def body_of(code):
    """Where what is declared, printed or assigned begins, behind a statement's first word."""
    found = re.match(rf"INTEGER|DIMENSION|PARAMETER\(|PRINT\*,?|PROGRAM|DO\d+,?|IF(?=\()|", code)
    return found.end()


def becomes_constant(name, line):
    return f"{name} becomes a constant below, in line {line}: put that line in front of this one"


class Finders:
    """What a pattern alone cannot tell. Each gives a place in the statement and what to write."""

    def __init__(self, program, statement, refusal):
        self.program, self.statement, self.refusal = program, statement, refusal
        self.code = statement.code
        self.loops = self.loops_round()
        self.variables = [it.variable for it in self.loops]

    def loops_round(self):
        """The loops that stand round the statement; of a DO those outside."""
        line = self.statement.line
        known = [it for it in self.program.loops if it.line < line and (not it.end or line <= it.end)]
        return known

    def missing_label(self):
        found = re.match(rf"DO({NAME}=)", self.code)
        if found and "," in self.code and not re.match(r"DO\d", self.code):
            return found.start(1), f"a DO names the label of its last statement: {LABELLED}"

    def past_column(self):
        """Text that the statement's line has behind its last column."""
        for number in self.statement.lines:
            line = self.program.source.lines[number - 1]
            if line[72:].strip():
                at = 73 + len(line[72:]) - len(line[72:].lstrip())
                return (number, at), "a line ends in column 72, and what stands behind it is no part of it; go on in the next line, by a character in its column 6"

    def misspelt(self):
        first = "".join(self.statement_words()[:1])
        close = difflib.get_close_matches(first, STATEMENTS, 1, 0.75)
        if close and first != close[0]:
            return 0, f"{first} is no statement; {close[0]} is one"

    def statement_words(self):
        """The words of the statement's first line, as they are written."""
        line = self.program.source.lines[self.statement.line - 1]
        return re.findall(r"[A-Za-z]+", line[6:72].upper())

    def open_text(self):
        if self.code.count("'") % 2:
            return self.code.rfind("'"), "this apostrophe opens a text that no second one closes"

    def parentheses(self):
        depth, opened = 0, []
        for at, c in enumerate(self.code):
            if c == "(":
                opened.append(at)
            elif c == ")" and not opened:
                return at, "this parenthesis closes none"
            elif c == ")":
                opened.pop()
        if opened:
            return opened[-1], "this parenthesis is not closed"

    def trailing(self):
        found = re.search(r"[,+\-*/=(]$", self.code)
        if found:
            return found.start(), (
                f"something is missing behind {found[0]}; a statement goes on in the next line by a character in its column 6"
            )
        begun = body_of(self.code)
        found = re.search(r"[-+*/=(,](?P<at>[*/=),])", self.code[begun:])
        if found:
            return begun + found.start("at"), f"something is missing in front of {found['at']}"

    def long_name(self):
        begun = body_of(self.code)
        for name, at, _ in reads(self.code[begun:]):
            if len(name) > 6:
                return at + begun, f"{name} has {len(name)} characters; a name has at most 6, as {name[:6]}"

    def short_minimum(self):
        for name, at, subscripts in reads(self.code):
            if name in FUNCTIONS and name not in self.program.arrays and subscripts and len(subscripts) < 2:
                return at, f"{name} takes two values or more: {name}(K, 0)"

    def gone_on(self):
        """A continuation line that looks as if it were none."""
        for number in self.statement.lines[1:]:
            line = self.program.source.lines[number - 1]
            if re.match(r"     ([A-Za-z]|\d\d+ *[A-Za-z])", line):
                return (number, 6), f"column 6 of this line is no blank, so it goes on with the line above; {COLUMNS}"

    def out_of_order(self):
        declares = re.match(r"(INTEGER|DIMENSION|PARAMETER)(?![A-Z0-9]*=)", self.code)
        above = [it for it in self.program.actions if it.line < self.statement.line]
        loops = [it for it in self.program.loops if it.line < self.statement.line]
        if declares and (above or loops):
            return 0, f"{declares[0]} stands behind an executable statement; declarations come first, behind PROGRAM"
        if re.match(r"PROGRAM(?!\w*=)", self.code) and self.statement is not self.program.source.statements[0]:
            return 0, "PROGRAM is the first statement, or none"

    def functions(self):
        """A function that isn't there; in a subscript or a comparison no quotient of a variable may stand."""
        in_forms = [(at, at + len(text)) for at, text, _ in self.forms()]
        for name, at, subscripts in reads(self.code):
            if subscripts is None or name in self.program.arrays:
                continue
            if name in ("MOD", "MODULO") and any(low <= at < high for low, high in in_forms):
                if self.program.form_of(subscripts[0], self.loops) is None:
                    return at, f"there is no function but MIN and MAX, and here no value that is computed: {AFFINE}"
                return at, "there is no function but MIN and MAX, and here no remainder: for each second trip write a loop with step 2, DO 10 I = 1, N, 2"
            if name in REPLACED or name in INTRINSICS:
                more = f": {REPLACED[name]}" if name in REPLACED else ""
                return at, f"there is no function but MIN and MAX{more}"
            if any(re.search(rf"(?i)FUNCTION\s+{name}\b", it) for it in self.program.source.lines):
                return at, f"there are no functions of one's own: write the expression of {name} in place"

    def declared_below(self):
        """An array that is declared behind its first use."""
        for name, at, subscripts in reads(self.code):
            line = self.program.declared.get(name, 0)
            if subscripts is not None and line > self.statement.line:
                return at, f"{name} is declared below, in line {line}; declarations come first"

    def text_outside(self):
        at = self.code.find("'")
        if at >= 0 and not self.code.startswith("PRINT*,"):
            return at, "text stands in a PRINT alone: PRINT *, 'K', K"

    def label_columns(self):
        """A label that goes on behind column 6, or begins there."""
        line = self.program.source.lines[self.statement.line - 1]
        found = re.match(r" *(\d{2,})(?= *[A-Za-z])", line)
        if found and found.start(1) > 5:
            return (self.statement.line, found.start(1) + 1), f"a label stands in columns 1 to 5: {COLUMNS}"
        if found and found.end() > 6:
            return (self.statement.line, 6), f"this label reaches column {found.end()}: labels end in column 5, and are 1 to 99999"

    def no_operator(self):
        begun = closing(self.code, 2) + 1 if self.code.startswith("IF(") else body_of(self.code)
        found = re.search(r"(?:(?<![A-Z0-9])\d+(?=[A-Z(])|\)(?=[A-Z0-9(]))(?P<at>.)", self.code[begun:])
        if found:
            return begun + found.start("at"), "an operator is missing in front of this: 2*K"

    def no_statement(self):
        if not re.match(r"[A-Z0-9]+(\(.*\))?=|DO\d+,?[A-Z]\w*=.*,|IF\(.*\).*=", self.code):
            return 0, "this is no statement: its first word is misspelt, or an = or a comma is missing"

    @staticmethod
    def behind_end_of(end):
        return f"the program ends in line {end}, and only comments may stand behind END"

    def no_array(self):
        begun = body_of(self.code)
        for name, at, subscripts in reads(self.code[begun:]):
            taken = {*self.program.arrays, *FUNCTIONS, "IF"}
            if subscripts is not None and name not in taken:
                return at + begun, f"{name} is no array: declare it with its bounds, INTEGER {name}({', '.join('N' for _ in subscripts)}), or, if it is a function, write its expression in place"

    def no_constant(self):
        if not re.match(r"INTEGER|DIMENSION|PARAMETER", self.code):
            target = re.match(NAME, self.code)
            if target and target[0] in self.program.constants:
                return 0, f"{target[0]} is a named constant (PARAMETER), and nothing can be stored in it"
            return None
        begun = body_of(self.code)
        inner = self.code[begun:]
        for name, at, _ in reads(inner):
            is_bound = inner[:at].count("(") > inner[:at].count(")")
            is_value = self.code.startswith("PARAMETER") and inner[at - 1 : at] in ("=", "*", "+", "-", "/", "(")
            if not (is_value or (is_bound and not self.code.startswith("PARAMETER"))):
                continue
            below = self.program.constant_lines.get(name, 0)
            if below > self.statement.line:
                return at + begun, becomes_constant(name, below)
            if name not in self.program.constants:
                return at + begun, f"{name} is no named constant; a line PARAMETER ({name} = 8) in front makes it one"

    def no_integer(self):
        begun = body_of(self.code)
        for name, at, _ in reads(self.code[begun:]):
            if name not in FUNCTIONS and not self.program.is_integer(name):
                return at + begun, (
                    f"{name} is not INTEGER: add INTEGER {name} in front of the executable statements, or begin its name with I to N"
                )

    def loop_variable(self):
        begun = body_of(self.code)
        known = {it.variable: it for it in self.program.loops}
        for name, at, _ in reads(self.code[begun:]):
            loop = known.get(name)
            if loop and (name not in self.variables or re.match(rf"{name}=", self.code[at + begun :])):
                return at + begun, (
                    f"{name} is the variable of the DO in line {loop.line}: it is read inside that loop alone, and stored nowhere; keep its value in another variable"
                )

    def subscript_count(self):
        begun = body_of(self.code)
        for name, at, subscripts in reads(self.code[begun:]):
            bounds = self.program.arrays.get(name)
            if bounds and len(subscripts or []) != len(bounds):
                had = len(subscripts or [])
                if had:
                    return at + begun, f"{name} has {len(bounds)} dimension{'s' * (len(bounds) > 1)}, and {had} subscript{'s' * (had != 1)} here"
                if not self.code.startswith("PRINT"):
                    return at + begun, f"{name} is an array, and whole arrays stand in a PRINT alone: write a loop over the elements, DO 10 I = 1, 3 and 10 {name}(I{', J, K'[:3 * len(bounds) - 3]}) = 0"

    def constant_below(self):
        """A named constant that is one behind this statement alone."""
        begun = body_of(self.code)
        for name, at, _ in reads(self.code[begun:]):
            below = self.program.constant_lines.get(name, 0)
            if below > self.statement.line:
                return at + begun, becomes_constant(name, below)

    def divisor(self):
        for it in re.finditer("/", self.code):
            rest = self.code[it.end() :]
            found = re.match(r"\(", rest)
            text = rest[: closing(rest, 0) + 1] if found else (re.match(rf"\d+|{NAME}(\(.*?\))?", rest) or [""])[0]
            if self.program.number_of(text) in (None, 0):
                said = "is 0" if self.program.number_of(text) == 0 else "is no constant"
                return it.end(), f"the divisor {text} {said}; a divisor is a number or a named constant other than 0"

    def not_affine(self):
        """The first name in a subscript, a bound, a step or a comparison that may not stand there."""
        for begun, text, what in self.forms():
            if self.program.form_of(text, self.loops) is not None:
                continue
            for name, at, subscripts in reads(text):
                if name in FUNCTIONS or name in self.program.constants or name in self.variables:
                    continue
                kind = "an element of an array" if subscripts is not None else "a variable whose value may change"
                where = {
                    "comparison": "a comparison is of sums of multiples of loop variables and constants, as I .EQ. N; in place of one of values serve MIN and MAX",
                    "subscript": "a subscript is a sum of multiples of loop variables and constants, as A(2*I+1)",
                    "bound": "a DO's bounds are sums of multiples of loop variables and constants; a constant (PARAMETER) can be set by a word N=8",
                }[what]
                return begun + at, f"{name} is {kind}: {where}"
            return begun, "this is no sum of multiples of loop variables and constants"

    def forms(self):
        """Each text of the statement that has to be affine, and where it begins."""
        code = self.code
        do = re.match(rf"DO\d+,?{NAME}=", code)
        if do:
            at = do.end()
            for part in split_outside(code[at:]):
                yield at, part, "bound"
                at += len(part) + 1
            return
        if code.startswith("IF("):
            end = closing(code, 2)
            at = 3
            for part in re.split(r"(\.[A-Z]+\.)", code[3:end]):
                if not part.startswith("."):
                    yield at, part, "comparison"
                at += len(part)
        for name, at, subscripts in reads(code):
            if subscripts is None or name not in self.program.arrays:
                continue
            at += len(name) + 1
            for part in subscripts:
                yield at, part, "subscript"
                at += len(part) + 1

    def step(self):
        do = re.match(rf"DO\d+,?{NAME}=", self.code)
        parts = split_outside(self.code[do.end() :]) if do else []
        if len(parts) == 3:
            at = do.end() + len(parts[0]) + len(parts[1]) + 2
            number = self.program.number_of(parts[2])
            if number == 0:
                return at, "the step is 0: write another one, or none for 1"
            if number is None:
                return at, "a step is a constant"

    def limit(self):
        """What to do where a limit is passed."""
        found = re.search(r"COUNT (-?\d+)", self.refusal)
        count = int(found[1]) if found else 0
        if re.match(r"DO\d", self.code) and count == 7:
            return 0, "this is the seventh of loops in one another, and there are 6 at most: write the trips of the shortest one as statements"
        if re.match(r"INTEGER|DIMENSION", self.code) and count < 1:
            return body_of(self.code), "a dimension has no elements: it goes from 1 to an upper bound, or is lower:upper with the lower bound first"
        if re.match(r"INTEGER|DIMENSION", self.code) and count < 2**31:
            for name, at, subscripts in reads(self.code[body_of(self.code):]):
                if subscripts and len(subscripts) > 3:
                    return at + body_of(self.code), f"{name} has {len(subscripts)} dimensions, and there are 3 at most: let one stand for two, {name}(N*M, ..) with the subscript I + N*(J-1)"
        if count > 400:
            return None, "a program has at most 400 statements: write those that differ in a number as a loop"

    def column_six(self):
        """A label of six columns, of which the last is passed over."""
        loop = self.program.open[-1] if self.code == "END" and self.program.open else None
        for number, line in enumerate(self.program.source.lines, 1) if loop else ():
            if number > loop.line and line[:1] not in tuple("Cc*") and re.match(rf" *{loop.label}(?![0-9])", line) and line[5:6].isdigit():
                return (number, 6), f"this label reaches column 6, which is none of a label: labels end in column 5; so the loop of line {loop.line} is open"

    def open_loop(self):
        if self.code == "END" and self.program.open:
            loop = self.program.open[-1]
            return None, f"the loop of line {loop.line}, DO {loop.label}, is open: no statement behind it has the label {loop.label} in columns 1 to 5"

    def twice_labelled(self):
        label = self.statement.label
        above = [it for it in self.program.source.statements if it.label == label and it.line < self.statement.line]
        if label and above:
            return None, f"the label {label} stands in line {above[0].line} already"

    def ends_here(self):
        """A label of an open loop that isn't the innermost, or of a statement of another kind."""
        loops = [it for it in self.loops if it.label == self.statement.label]
        if loops and self.loops[-1] not in loops:
            inner = self.loops[-1]
            return None, f"the loop of line {inner.line}, DO {inner.label}, has to end in front of this line, or with it"
        if loops:
            return None, "a loop ends with an assignment, an IF, a PRINT or a CONTINUE"

    def range(self):
        """The access whose subscript is out of range, where just one may be."""
        found = re.match(r"REFUSED S1 LINE \d+ DIMENSION (\d+) VALUE (-?\d+) BOUND (-?\d+)", self.refusal)
        if not found:
            return None
        axis, value, bound = int(found[1]) - 1, int(found[2]), int(found[3])
        places = {}
        for name, at, subscripts in reads(self.code):
            bounds = self.program.arrays.get(name, [])
            if subscripts and len(subscripts) == len(bounds) > axis and bound in bounds[axis]:
                form = self.program.form_of(subscripts[axis], self.loops)
                if form is None or form.loops or form.constant == value or form.names:
                    begun = at + len(name) + 1 + sum(len(it) + 1 for it in subscripts[:axis])
                    places.setdefault(subscripts[axis], (begun, name))
        end = "from" if value < bound else "to"
        if len(places) == 1:
            begun, name = next(iter(places.values()))
            return begun, f"this subscript of {name} comes to {value}, and its dimension goes {end} {bound}: mend the loop's bounds or the array's"
        return None, f"a subscript comes to {value}, and its dimension goes {end} {bound}: mend the loop's bounds or the array's"

    def missing_end(self):
        return None, "the last line of a source is END, in columns 7 to 72"


# name, codes; in the order in which they are tried, behind the patterns
FINDERS = [
    ("past_column", "F1"), ("missing_label", "F1 F2"), ("open_text", "F1 F2"), ("functions", "F4 F5 F1 F3"), ("misspelt", "F1 F2"), ("parentheses", "F1 F2"),
    ("trailing", "F1 F2"), ("out_of_order", "F1"), ("long_name", "F1 F2"), ("short_minimum", "F1"), ("gone_on", "F1 F2 F4"),
    ("declared_below", "F4"), ("no_array", "F4"), ("no_constant", "F4"), ("no_integer", "F3"), ("loop_variable", "F10"),
    ("subscript_count", "F5"), ("constant_below", "F6 F8"), ("divisor", "F8"), ("step", "F6 F7"), ("not_affine", "F6"),
    ("text_outside", "F2"), ("label_columns", "F1 F2"), ("no_operator", "F1"), ("no_statement", "F1"), ("twice_labelled", "F9"), ("column_six", "F9"), ("open_loop", "F9"), ("ends_here", "F9"), ("range", "S1"), ("limit", "F12"), ("missing_end", "L4"),
]

# told without a finder of its own
PLAIN = ["behind_end", "twentieth"]


class Hint:
    """What is told of a refusal: the pattern's name, a line and a column or None, and what to write."""

    def __init__(self, name, line, column, say):
        self.name, self.line, self.column, self.say = name, line, column, say


def fits(codes, code):
    return code in codes.split()


def hint_for(program, code, number, refusal):
    """What is to be told of a refusal with this code and line, or None."""
    source = program.source
    line = source.lines[number - 1] if number <= len(source.lines) else ""
    begun = source.statement_at(number)
    if code == "L3" and begun and len(begun.lines) > 20 and re.match(r" {5}[^ 0]", line):
        return Hint("twentieth", number, 6, f"this is continuation line {begun.lines.index(number)} of the statement of line {begun.line}, and there are 19 at most: store a part of it in a variable first")
    for name, codes, pattern, say in LINES:
        near = [(number, line)]
        if name == "glued-plan":
            near = list(enumerate(source.lines, 1))
        for at, text in near:
            found = re.match(pattern, text[:72]) if fits(codes, code) else None
            if found:
                return Hint(name, at, found.start("at") + 1, say)
    if code == "L4":
        ends = [it for it in source.statements if re.match(r"END[A-Z]", it.code)]
        if ends:
            return Hint("end-name", ends[-1].line, ends[-1].spots[0][1], "the last line is END alone")
    statement = source.statement_at(number)
    if code == "L5" and source.end:
        return Hint("behind_end", number, None, Finders.behind_end_of(source.end))
    if statement is None:
        statement = source.statements[-1] if source.statements and code == "L4" else None
    if statement is None:
        return Hint("missing_end", number, None, Finders.missing_end(None)[1]) if code == "L4" else None
    for name, codes, pattern, say in PATTERNS:
        found = re.match(pattern, statement.code) if fits(codes, code) and code != "L4" else None
        if found:
            at = found.start("at") if "at" in found.groupdict() else 0
            return Hint(name, *spot_of(statement, at), say)
    finders = Finders(program, statement, refusal)
    for name, codes in FINDERS:
        found = getattr(finders, name)() if fits(codes, code) else None
        if found:
            where = found[0] if isinstance(found[0], tuple) else spot_of(statement, found[0])
            return Hint(name, *((number, None) if code == "L4" else where), found[1])
    return None


def spot_of(statement, at):
    """The line and the column of a place in a statement's text."""
    if at is None or at >= len(statement.spots):
        return statement.line, None
    return statement.spots[at]
