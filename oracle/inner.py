"""The inner functions, from lines on standard input.

Terms are set apart by ` ; `, a term's literals stand after ` : `. Empty lines are passed over.
  ge CONSTANT ; TERM ..       one inequality: the terms plus CONSTANT at least 0
  eq CONSTANT ; TERM ..       both inequalities of an equation
    TERM is COEF LOW STEP : LITS (domain LOW, LOW + STEP, .., one value more than literals)
         or COEF = D0 D1 .. : LITS (domain listed, strictly rising)
  adder VARIABLES ; CONSTANTS ; RESULT ; OFFSET : LITS ; ..
                              `log_encoding_adder`: constants by column, given result literals
                              (either may be empty), values
  adder2 VARIABLES CONSTANT ; OFFSET SIGN LIT ; ..
                              `log_encoding_adder2`: SIGN is 1 or -1
Each is answered by four lines:
  variables V                 variable count after it (0 for ge and eq)
  sent [| LITS]..             clauses sent to the solver during it
  returned [| LITS]..         clauses returned
  result LITS                 result literals of `adder`
"""

ANSWERS = ("variables", "sent", "returned", "result")


def integers(text):
    return [int(word) for word in text.split()]


def order_term(text):
    """Coefficient, literal count, domain, literals."""
    head, lits = text.split(":")
    lits = integers(lits)
    if "=" in head:
        coef, domain = head.split("=")
        coef, domain = int(coef), integers(domain)
    else:
        coef, low, step = integers(head)
        domain = [low + step * i for i in range(len(lits) + 1)]
    if len(domain) != len(lits) + 1:
        raise ValueError("domain and literals do not go together: " + text)
    return [coef, len(lits), *domain, *lits]


def value_term(text):
    """Offset, literal count, literals."""
    offset, lits = text.split(":")
    return [int(offset), len(integers(lits)), *integers(lits)]


def numbers_of(line):
    """The driver's word and numbers for a line."""
    head, *parts = [part.strip() for part in line.split(";")]
    word, *first = head.split()
    numbers = [int(n) for n in first]
    if word in ("ge", "eq"):
        lists = [order_term(part) for part in parts]
    elif word == "adder":
        counted = [[len(integers(part)), *integers(part)] for part in parts[:2]]
        lists = counted + [value_term(part) for part in parts[2:]]
    elif word == "adder2":
        lists = [integers(part) for part in parts]
    else:
        raise ValueError("unknown word: " + word)
    return word, numbers + [n for part in lists for n in part]


def run(driver, lines, out):
    for line in lines:
        if not line.strip():
            continue
        word, numbers = numbers_of(line)
        answers = driver.ask(" ".join([word, *map(str, numbers)]), 4)
        for name, answer in zip(ANSWERS, answers):
            out.write(f"{name} {answer}".rstrip() + "\n")
