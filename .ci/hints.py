"""Tries what bin/seagrynt tells of refused sources: hints.py [NAME..]

Each pattern and each finder of bin/front/hints.py has a source here that is refused, with a part of
what is told, and the text below which the caret stands, if one does; some have faults behind the first. And
the options that bin/front/tell.py knows are those of the help. The source's lines stand from
column 7 on where they begin with no blank, digit or `C`; END is added where there is none. The
program is the one that is built.
"""

import os
import re
import subprocess
import sys
from concurrent.futures import ThreadPoolExecutor

ROOT = os.path.dirname(os.path.dirname(os.path.abspath(__file__)))
sys.dont_write_bytecode = True
sys.path.insert(0, f"{ROOT}/bin/front")
import hints  # noqa: E402
import tell  # noqa: E402

# the pattern's name, the source, a part of what is told, what stands above the caret
CASES = [
    ("end-do", "DO 10 I = 1, 5|K = I|END DO", "10 CONTINUE", "END DO"),
    ("end-do", "DO I = 1, 5|K = I|ENDDO", "the label of its last statement", "I = 1, 5"),
    ("missing_label", "DO I = 1, 5|K = I|   10 CONTINUE", "DO 10 I = 1, N", "I = 1, 5"),
    ("past_column", "INTEGER A(9)|A(1) = 1111111111 + 1111111111 + 1111111111 + 1111111111 + (1111 + 1)", "a line ends in column 72", "1)"),
    ("do-while", "DO WHILE (K .LT. 5)", "no DO WHILE", "DO WHILE"),
    ("end-if", "ELSE", "an IF of its own", "ELSE"),
    ("end-if", "END IF", "an IF of its own", "END IF"),
    ("block-if", "DO 10 I = 1, 5|IF (I .LT. 3) THEN|   10 CONTINUE", "an IF of its own", "THEN"),
    ("type", "REAL X", "declare INTEGER", "REAL X"),
    ("type", "DOUBLE PRECISION X(5)", "declare INTEGER", "DOUBLE"),
    ("logical-type", "LOGICAL DONE", "keep 1 or 0", "LOGICAL"),
    ("character-type", "CHARACTER*8 NAME", "text stands in a PRINT alone", "CHARACTER"),
    ("implicit", "IMPLICIT NONE", "leave it out", "IMPLICIT"),
    ("kind", "INTEGER*8 K", "64 bits", "*8"),
    ("kind", "INTEGER(8) :: K", "64 bits", "(8)"),
    ("colons", "INTEGER :: N", "leave :: out", "::"),
    ("colons", "INTEGER, PARAMETER :: N = 4", "PARAMETER (N = 4)", "::"),
    ("output", "WRITE(*,*) K", "PRINT *,", "WRITE"),
    ("print", "PRINT 100, K", "no format", "PRINT 100"),
    ("print", "PRINT K", "a star and a comma", "PRINT K"),
    ("input", "READ *, K", "no input", "READ"),
    ("call", "CALL SUB(K)", "no subroutines", "CALL"),
    ("jump", "GOTO 10", "no jumps", "GOTO"),
    ("jump", "IF (K .LT. 5) GO TO 10", "no jumps", "GO TO"),
    ("arithmetic-if", "IF (K) 10, 20, 30", "no jumps", "10, 20"),
    ("data", "DATA K /5/", "K = 1; what isn't stored is 0", "DATA"),
    ("equivalence", "EQUIVALENCE (K, L)", "one name", "EQUIV"),
    ("common", "@      COMMON K", "leave it out", "COMMON"),
    ("concurrent", "DO CONCURRENT (I = 1:5)", "no word for it", "DO CON"),
    ("parameter", "PARAMETER N = 4", "in parentheses", "N = 4"),
    ("allocate", "ALLOCATE(A(5))", "where it is declared", "ALLOC"),
    ("allocate", "INTEGER, ALLOCATABLE :: A(:)", "leave :: out", "::"),
    ("include", "INCLUDE 'X'", "in place", "INCLUDE"),
    ("first-value", "INTEGER N = 4", "gives no value", "N = 4"),
    ("first-value", "INTEGER A(5), N = 4", "gives no value", "N = 4"),
    ("and", "DO 10 I = 1, 9|   10 IF (I .GT. 3 .AND. I .LT. 7) K = I", "K = L*I + (1-L)*K", ".AND."),
    ("or", "DO 10 I = 1, 9|   10 IF (I .LT. 3 .OR. I .GT. 7) K = I", "two IFs", ".OR."),
    ("not", "DO 10 I = 1, 9|   10 IF (.NOT. I .LT. 3) K = I", ".GE. for .LT.", ".NOT."),
    ("no-parentheses", "DO 10 I = 1, 9|   10 IF I .LT. 3 K = I", "stands in parentheses", "I ."),
    ("value", "K = L .EQ. 3", "in an IF alone", ".EQ."),
    ("value", "INTEGER A(5)|A(1 .LT. 2) = 1", "in an IF alone", ".LT."),
    ("else", "IF (1 .LT. 2) K = 3 ELSE K = 4", "there is no ELSE", "ELSE"),
    ("if-other", "DO 10 I = 1, 9|   10 IF (I .LT. 3) CONTINUE", "one assignment and nothing else", "CONTINUE"),
    ("if-print", "DO 10 I = 1, 9|   10 IF (I .LT. 3) PRINT *, I", "stands under no IF", "PRINT"),
    ("double-parentheses", "DO 10 I = 1, 9|   10 IF ((I .LT. 3)) K = I", "one pair", "(I"),
    ("do-comma", "DO 10 I = 1 9|   10 K = I", "a comma stands between", "1 9"),
    ("do", "D 10 I = 1, 9|   10 K = I", "a label, a variable and bounds", "D 10"),
    ("do", "DO 10 = 1, 9|   10 K = 1", "a label, a variable and bounds", "DO 10"),
    ("do-comma", "DO 10 I = 1;9|   10 K = I", "a comma stands between", "1;9"),
    ("do-comma", "DO 10 I = 1.10|   10 K = I", "a comma stands between", "1.10"),
    ("implied-do", "INTEGER A(9)|PRINT *, (A(I), I = 1, 9)", "has no loop in it", "(A(I)"),
    ("print-comma", "PRINT * K", "behind the star", "K"),
    ("item-comma", "PRINT *, 'K' K", "between two items", "K"),
    ("item-comma", "PRINT *, K 'K'", "between two items", "'K'"),
    ("section", "INTEGER A(9)|A(1:3) = 0", "a loop over the elements", ":3"),
    ("stop-code", "K = 1|STOP 1", "leave it out", "1"),
    ("functions", "K = IAND(3, 1)", "but MIN and MAX", "IAND"),
    ("functions", "INTEGER A(9)|K = SUM(A)", "K = K + A(I)", "SUM"),
    ("functions", "K = MODULO(7, 2)", "not below 0", "MODULO"),
    ("functions", "DO 10 I = 1, 9|   10 IF (MOD(I, 2) .EQ. 0) K = I", "a loop with step 2", "MOD"),
    ("functions", "INTEGER A(9)|DO 10 I = 1, 9|   10 A(MOD(I, 2)) = I", "a loop with step 2", "MOD"),
    ("functions", "INTEGER A(9), B(9)|DO 10 I = 1, 9|   10 B(MOD(A(I), 9)) = I", "no value that is computed", "MOD"),
    ("limit", "INTEGER A(2,2,2,2)", "4 dimensions", "A(2"),
    ("limit", "INTEGER A(5:3)", "no elements", "A(5"),
    ("limit", "|".join(f"DO 10 {it} = 1, 2" for it in "I J K L M N II".split()) + "|   10 KK = II", "the seventh", "DO 10 II"),
    ("no_constant", "INTEGER A(N)|PARAMETER (N = 4)", "below, in line 2", "N)"),
    ("label_columns", "DO 1000 I = 1, 5|K = I|   1000 CONTINUE", "reaches column 7", "00 CONT"),
    ("long-label", "DO 0 I = 1, 5|K = I|   10 CONTINUE", "1 to 99999", "0 I"),
    ("label_columns", "DO 10 I = 1, 5|K = I|        10 CONTINUE", "in columns 1 to 5", "10 C"),
    ("constant_below", "DO 10 I = 1, N|   10 K = I|PARAMETER (N = 5)", "below, in line 3", "N"),
    ("long-label", "DO 100000 I = 1, 5|K = I|   10 CONTINUE", "1 to 99999", "100000"),
    ("column_six", "DO 100 I = 1, 5|K = I|   100 CONTINUE", "reaches column 6", "0 CONT"),
    ("gone_on", "DO 10 I = 1, 3|K = 2|@     10 CONTINUE", "goes on with the line above", "10 CONT"),
    ("twentieth", "K = 1" + "|@     1+2" * 20, "19 at most", "1+2"),
    ("comment", "K = 1 ! one", "C or * in column 1", "! one"),
    ("quotes", 'PRINT *, "K", K', "apostrophes", '"K"'),
    ("semicolon", "K = 1; L = 2", "one statement", "; L"),
    ("ampersand", "K = 1 + &|     &2", "column 6", "&"),
    ("store", "K += 1", "by = alone", "+= 1"),
    ("store", "K++", "by = alone", "++"),
    ("not-equal", "DO 10 I = 1, 5|   10 IF (I .NE. 3) K = I", "two IFs", ".NE."),
    ("logical", "K = .TRUE.", "no logical values", ".TRUE."),
    ("comparison", "DO 10 I = 1, 5|   10 IF (I > 3) K = I", ".GT.", "> 3"),
    ("comparison", "DO 10 I = 1, 5|   10 IF (I == 3) K = I", ".EQ.", "=="),
    ("power", "K = L**2", "K*K", "**2"),
    ("power", "K = L^2", "K*K", "^2"),
    ("real", "K = 1.5", "thousandths", "1.5"),
    ("real", "K = 0.25*L", "thousandths", "0.25"),
    ("end-name", "K = 1|END PROGRAM X", "END alone", "END PROGRAM"),
    ("end-name", "END PROGRAM X|END", "END alone", "END PROGRAM"),
    ("stop", "STOP|K = 1", "directly in front of END", "STOP"),
    ("underscore", "N_MAX = 5", "letters and digits alone", "N_MAX"),
    ("bracket", "INTEGER A(5)|A[1] = 0", "( and )", "["),
    ("sign", "K = 2*-3", "2*(-3)", "-3"),
    ("assign-twice", "K = L = 1", "are two", "= 1"),
    ("misspelt", "INTEGR A(5)", "INTEGER is one", "INTEGR"),
    ("misspelt", "PRIMT *, K", "PRINT is one", "PRIMT"),
    ("open_text", "PRINT *, 'A", "no second one closes", "'A"),
    ("functions", "DO 10 I = 1, 5|   10 K = MOD(I, 2)", "I - 2*(I/2)", "MOD"),
    ("functions", "K = ABS(L)", "MAX(K, -K)", "ABS"),
    ("parentheses", "INTEGER A(5)|A(1 = 0", "not closed", "(1"),
    ("parentheses", "K = (L + 1))", "closes none", ")"),
    ("trailing", "PRINT *, K,", "missing behind ,", ","),
    ("trailing", "K = L +", "missing behind +", "+"),
    ("trailing", "PRINT *, K,, L", "missing in front of ,", ", L"),
    ("no_operator", "INTEGER A(9)|DO 10 I = 1, 4|   10 A(2I) = I", "an operator is missing", "I)"),
    ("no_operator", "K = 2 L", "an operator is missing", "L"),
    ("no_operator", "K = (L+1)(L-1)", "an operator is missing", "(L-1"),
    ("out_of_order", "K = 1|INTEGER A(5)", "declarations come first", "INTEGER"),
    ("long_name", "KILOGRAM = 1", "at most 6", "KILOGRAM"),
    ("long_name", "INTEGER DENSITY(5)", "at most 6", "DENSITY"),
    ("short_minimum", "K = MIN(3)", "two values or more", "MIN"),
    ("gone_on", "INTEGER A(5)|     K = 1", "column 6 of this line", "K = 1"),
    ("no_array", "K = L(1)", "INTEGER L(N)", "L(1)"),
    ("no_constant", "INTEGER A(M)", "PARAMETER (M = 8)", "M)"),
    ("no_constant", "PARAMETER (N = 1)|N = 2", "nothing can be stored", "N = 2"),
    ("no_integer", "K = X + 1", "add INTEGER X", "X +"),
    ("no_integer", "TEMP = 1", "add INTEGER TEMP", "TEMP"),
    ("loop_variable", "DO 10 I = 1, 3|   10 CONTINUE|K = I", "the DO in line 1", "I"),
    ("loop_variable", "DO 10 I = 1, 3|   10 I = 2", "stored nowhere", "I = 2"),
    ("subscript_count", "INTEGER A(2,2)|A(1) = 0", "2 dimensions, and 1 subscript here", "A(1)"),
    ("subscript_count", "INTEGER A(5)|A = 0", "a loop over the elements", "A = 0"),
    ("divisor", "K = 1/L", "the divisor L is no constant", "L"),
    ("divisor", "PARAMETER (N = 1)|K = 1/(N - 1)", "(N-1) is 0", "(N - 1)"),
    ("step", "DO 10 I = 1, 9, 2 - 2|   10 CONTINUE", "the step is 0", "2 - 2"),
    ("step", "DO 10 I = 1, 9, K|   10 CONTINUE", "a step is a constant", "K"),
    ("not_affine", "INTEGER A(5), IDX(5)|DO 10 I = 1, 5|   10 A(IDX(I)) = I", "IDX is an element", "IDX(I)"),
    ("not_affine", "INTEGER A(5)|A(K) = 1", "K is a variable whose value may change", "K)"),
    ("not_affine", "IF (K .EQ. 1) L = 2", "a comparison is of sums", "K .EQ."),
    ("not_affine", "DO 10 I = 1, K|   10 L = I", "a DO's bounds", "K"),
    ("twice_labelled", "   10 K = 1|   10 L = 2", "stands in line 1 already", None),
    ("open_loop", "DO 10 I = 1, 3|K = I", "the loop of line 1, DO 10, is open", None),
    ("ends_here", "DO 10 I = 1, 3|DO 20 J = 1, 3|   10 CONTINUE|   20 CONTINUE", "the loop of line 2, DO 20,", None),
    ("range", "INTEGER A(8)|DO 10 I = 1, 8|   10 A(I+1) = I", "comes to 9", "I+1"),
    ("range", "INTEGER A(8), B(9)|A(0) = B(9)", "comes to 0", "0)"),
    ("missing_end", "K = 1|CEND", "END, in columns 7 to 72", None),
    ("tab", "\tK = 1", "this is a tab", "^I"),
    ("byte", "K = 1 \x80", "no character", "?"),
    ("directive", "INTEGER A(5)|@!$DIST A(BLOCK)", "C$DIST in columns 1 to 6", "!$DIST"),
    ("comment-line", "! one", "C or * in column 1", "! one"),
    ("zero-label", "    0 K = 1", "1 to 99999", "0 K"),
    ("free-form", "@program heat", "begins in column 7", "program"),
    ("free-form", "@  k = 1", "begins in column 7", "k = 1"),
    ("free-form", "@    K = 1", "begins in column 7", "K = 1"),
    ("free-form", "@     K = 1", "begins in column 7", "K = 1"),
    ("label-place", "K = 1|@    15 K = 2", "a label ends in column 5", "15 K"),
    ("glued-plan", "K = 1|ENDSPMD PLAN 2|@WORKERS 2", "has no line end", "SPMD PLAN"),
    ("plan-behind", "K = 1|END|@SPMD PLAN 2", "verify", "SPMD PLAN"),
    ("label-field", "K = 1|@  ; K = 2", "columns 1 to 5", "; K"),
    ("goes-on", "@     * K = 1", "none to go on with", "* K"),
    ("behind_end", "K = 1|END|K = 2", "the program ends in line 2", None),
    ("character", "K = L > 1", "no meaning here", "> 1"),
    ("large-number", "K = 9223372036854775808", "at most 9223372036854775807", "9223"),
    ("trailing", "K =, L", "missing in front of ,", ", L"),
    ("declared_below", "A(1) = 0|INTEGER A(5)", "declared below, in line 2", "A(1)"),
    ("text_outside", "K = 'A'", "in a PRINT alone", "'A'"),
    ("no_statement", "K 1", "misspelt, or an =", "K 1"),
    ("no_statement", "DO 10 I 1, 5|   10 CONTINUE", "misspelt, or an =", "DO 10"),
    ("unit-behind", "K = 1|END|SUBROUTINE S", "no subroutines", "SUBROUTINE"),
]


FREE = """program heat
  implicit none
  integer, parameter :: n = 100
  integer :: a(n), b(n)
  integer :: steps_done
  ! start
  do i = 1, n
    a(i) = mod(i, 7)
  end do
  do it = 1, 10
    do i = 2, n-1
      b(i) = (a(i-1) + a(i+1)) / 2
    end do
    steps_done = steps_done + 1
  end do
  print *, a(50), steps_done
end program heat"""

# a source, and a part of each line that tells of a fault behind the first, in order
ALL = [
    ("|".join("@" + it for it in FREE.split("\n")), [
        "the same in lines 2, 3, 4, 5 and 10 more", "also line 6, L3: a comment", "also line 17, L4: the last line", "also line 2, F2: leave it out",
        "also lines 3, 4 and 5, F1: leave ::", "also line 5, F1: a name has", "also lines 7, 10 and 11, F2: a DO names",
        "also line 8, F4: there is no function", "also lines 9, 13 and 15, F2: there is no END DO",
    ]),
    ("INTEGER A(9)|A(0) = 1|A(10) = 2|B(1) = 3|B(2) = 4", ["the same in line 5", "also line 2, S1: this subscript of A comes to 0", "also line 3, S1: this subscript of A comes to 10"]),
    ("INTEGER A(9)|A(0) = 1|A(10) = 2", ["also line 3, S1: this subscript of A comes to 10"]),
    ("INTEGR A(9)|A(1) = 1|K = 1/0|X = 1|X = 2|K = X", ["also line 3, F8: the divisor 0", "also line 4, F3: X is not INTEGER"]),
    ("DO 10 I = 1, K|K = I|   10 CONTINUE|K = I", ["also line 4, F10: I is the variable"]),
    ("DO 10 I = 1, 3|DO 10 I = 1, 3|   10 K = I", []),
    ("IMPLICIT NONE|INTEGER I, J|PARAMETER N = 50|REAL U(N,N), OMEGA|OMEGA = 1.5|DO 10 I = 1, N|IF (I .EQ. 1) THEN|U(I,1) = 1.0|ELSE|U(I,2) = 2|ENDIF|"
     "   10 CONTINUE|WRITE(*,*) 'U', U(N/2,N/2)|STOP 1", [
         "also line 3, F1: constants stand", "also line 4, F2: all values are INTEGER", "also lines 5 and 8, F2: all values are whole", "also line 7, F2: there is no block IF",
         "also lines 9 and 11, F2: there is no block IF", "also line 13, F2: output is PRINT", "also line 14, F2: STOP stands alone",
     ]),
    ("@integer k|@k = f(1)|@end program|@integer function f(i)|@f = i|@end", [
        "the same in lines 2, 3, 4, 5 and 1 more", "also line 7, L5: the program ends", "also line 2, F4: there are no functions of one's own",
        "also line 3, F1: the last line", "also line 4, L5: there are no subroutines",
    ]),
    ("K = F(1)|END|INTEGER FUNCTION F(I)|F = I|END", ["also line 1, F4: there are no functions of one's own: write the expression of F"]),
    ("DO CONCURRENT (I=1:9)|K = 1", []),
    ("DO 100000 I = 1, 9|K = I|   100000 CONTINUE", ["also line 3, F1: this label reaches column 9"]),
    ("|".join(f"DO 10 I{it} = 1, 2" for it in range(7)) + "|   10 K = I6|K = X", ["also line 9, F3: X is not INTEGER"]),
    ("DO 10 I = 1, 9; DO 10 J = 1, 9|   10 K = I*J|L = X", ["also line 3, F3: X is not INTEGER"]),
    ("K = 1 ! one|L = 2 ! two|A = B", ["the same in line 2", "also line 3, F3: A is not", "also line 3, F3: B is not"]),
    ("REAL X(5)|DO WHILE (K .LT. 5)|K = K + 1|END DO|X(1) = 0.5", ["also line 2, F2: there is no DO WHILE", "also line 4, F2: there is no END DO", "also line 5, F2: all values"]),
    ("\tK = 1|\tL = 2|@K = 3", ["the same in line 2", "also line 3, L2: a statement begins"]),
]


def source_of(text):
    lines = []
    for line in text.split("|"):
        if line.startswith("@"):
            lines.append(line[1:])
        elif line[0] in " \t" or line == "CEND" or line[0] == "!":
            lines.append(line)
        else:
            lines.append("      " + line)
    if not any(it.startswith(("      END|", "CEND", "      ENDSPMD")) or it == "      END" for it in lines):
        lines += [] if "END PROGRAM" in lines[-1].upper() else ["      END"]
    return "\n".join(lines) + "\n"


def told(text):
    """What is told of a source, line by line."""
    done = subprocess.run(
        [f"{ROOT}/bin/seagrynt", "seq"],
        input=source_of(text).encode("latin-1"),
        capture_output=True,
        timeout=60,
        env={**os.environ, "SEAGRYNT_UNPROVED": "no"},
    )
    return done.returncode, done.stderr.decode("latin-1").split("\n")


def fault_in(name, text, said, below):
    """What is wrong with what is told of a source, or None."""
    status, lines = told(text)
    if status != 1:
        return f"status {status} instead of 1"
    if said not in lines[0]:
        return f"{said!r} is not told"
    carets = [k for k, it in enumerate(lines) if re.fullmatch(r"seagrynt: +\^", it)]
    if below is None:
        return "a caret is shown" if carets else None
    if not carets:
        return "no caret is shown"
    return None if lines[carets[0] - 1][len(lines[carets[0]]) - 1 :].startswith(below) else f"the caret is not below {below!r}"


def fault_in_all(text, wanted):
    """What is wrong with what is told behind the first fault of a source, or None."""
    status, lines = told(text)
    also = [it for it in lines[1:] if it.startswith(("seagrynt: also ", "seagrynt: the same "))]
    fits = status == 1 and len(also) == len(wanted) and all(a in b for a, b in zip(wanted, also))
    return None if fits else "other faults are told behind the first"


def options_faults():
    """Of each command whose options in the help aren't those that bin/front/tell.py knows, both."""
    with open(f"{ROOT}/.ci/help.txt", encoding="utf-8") as it:
        helps = it.read()
    for command, known in tell.OPTIONS.items():
        told = helps[helps.index(f"\n$ {command} --help\n") + 1 :].split("\n$ ")[0]
        listed = {*re.findall(r"(?m)^ +(?:-h, )?(--[a-z-]+)", told)} - {"--help", *tell.SCRIPT_WORDS}
        if listed != {*known}:
            yield f"{command}: the help has {sorted(listed)}, bin/front/tell.py {sorted(known)}"


def main(names):
    failed = 0
    for fault in options_faults():
        failed += 1
        print(fault)
    for text, wanted in ALL if not names or "all" in names else []:
        fault = fault_in_all(text, wanted)
        if fault:
            failed += 1
            print(f"{fault}: {source_of(text)!r}", *told(text)[1], sep="\n  ")
    cases = [it for it in CASES if not names or it[0] in names]
    with ThreadPoolExecutor(4) as runners:
        faults = list(runners.map(lambda it: fault_in(*it), cases))
    for (name, text, _, _), fault in zip(cases, faults):
        if fault:
            failed += 1
            print(f"{name}: {fault}: {source_of(text)!r}", *told(text)[1], sep="\n  ")
    known = {it[0] for it in [*hints.LINES, *hints.PATTERNS, *hints.FINDERS]} | {*hints.PLAIN}
    for name in sorted(known - {it[0] for it in CASES}):
        failed += 1
        print(f"{name}: no source tries it")
    print(f"{len(CASES) + len(ALL)} sources, {failed} faults")
    return 1 if failed else 0


if __name__ == "__main__":
    sys.exit(main(sys.argv[1:]))
