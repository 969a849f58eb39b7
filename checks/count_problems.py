"""Count problems, steps and questions as texts, and a checker of steps: written from the words of
docs/DEFINITIONS.md alone, for the programs in checks/ that compare with `stepcheck` and `solve`.
"""

# ---- the independent checker: plain sets and dictionaries, no trail


def fault_of(atoms, rule):
    """The name of the rule's first fault, or none."""
    lo, hi, lits = rule
    if any(atom >= atoms for atom, _ in lits):
        return "AtomRange"
    if len({atom for atom, _ in lits}) < len(lits):
        return "RepeatedAtom"
    return "BadBounds" if lo > hi else None


def counts(values, lits):
    true = sum(1 for atom, sign in lits if values.get(atom) == sign)
    false = sum(1 for atom, sign in lits if values.get(atom) == (not sign))
    return true, false


def conflicts(values, rule):
    lo, hi, lits = rule
    true, false = counts(values, lits)
    return true > hi or len(lits) - false < lo


def forced(values, rule):
    """The values that the rule adds, or none where it forces nothing. It does not conflict."""
    lo, hi, lits = rule
    true, false = counts(values, lits)
    unset = [(atom, sign) for atom, sign in lits if atom not in values]
    if unset and true == hi:
        return {atom: not sign for atom, sign in unset}
    if unset and len(lits) - false == lo:
        return {atom: sign for atom, sign in unset}
    return None


def named(rules, earlier, hint):
    kind, number = hint
    if kind == "r":
        return rules[number] if number < len(rules) else None
    if number >= len(earlier):
        return None
    clause = earlier[number][0]
    return (1, len(clause), clause)


def failing_hint(atoms, rules, earlier, step):
    clause, hints = step
    if any(atom >= atoms for atom, _ in clause) or len({atom for atom, _ in clause}) < len(clause):
        return 0
    if not hints:
        return 0
    values = {atom: not sign for atom, sign in clause}
    for place, hint in enumerate(hints):
        last = place + 1 == len(hints)
        rule = named(rules, earlier, hint)
        if rule is None:
            return place
        if conflicts(values, rule):
            return None if last else place
        more = forced(values, rule)
        if more is None:
            return place
        values.update(more)
    return len(hints)


def refusal_of_rules(atoms, rules):
    """The line of the rules' first fault, or none."""
    for number, rule in enumerate(rules):
        fault = fault_of(atoms, rule)
        if fault:
            return f"problem refused {number} {fault}"
    return None


def answer_of(atoms, rules, steps):
    refusal = refusal_of_rules(atoms, rules)
    if refusal:
        return refusal
    for number, step in enumerate(steps):
        hint = failing_hint(atoms, rules, steps[:number], step)
        if hint is not None:
            return f"bad {number} {hint}"
    return "accepted"


# ---- reading a text


def number_in(word):
    if not word or any(c not in "0123456789" for c in word) or (len(word) > 1 and word[0] == "0"):
        return None
    value = int(word)
    return value if value < 2**32 else None


def lit_in(word):
    atom = number_in(word[1:])
    return (atom, word[0] == "+") if word[:1] in ("+", "-") and atom is not None else None


def hint_in(word):
    number = number_in(word[1:])
    return (word[0], number) if word[:1] in ("r", "s") and number is not None else None


def line_in(line, number, items, kind):
    """What the line says, or none where it has not the form or may not stand there. The items are of
    the kind s, steps, or q, questions."""
    words = line.split(" ")
    if words[0] == "p" and number == 1 and len(words) == 2:
        atoms = number_in(words[1])
        return None if atoms is None else ("p", atoms)
    if words[0] == "r" and number > 1 and not items and len(words) >= 3:
        bounds = [number_in(word) for word in words[1:3]]
        lits = [lit_in(word) for word in words[3:]]
        return None if None in bounds or None in lits else ("r", (*bounds, lits))
    if words[0] == kind == "q" and number > 1:
        lits = [lit_in(word) for word in words[1:]]
        return None if None in lits else ("q", lits)
    if words[0] == kind == "s" and number > 1 and "/" in words:
        slash = words.index("/")
        lits = [lit_in(word) for word in words[1:slash]]
        hints = [hint_in(word) for word in words[slash + 1 :]]
        return None if None in lits or None in hints else ("s", (lits, hints))
    return None


def read(text, kind):
    """The number of atoms, the rules and the items, or the number of the first wrong line."""
    lines = text.decode("latin-1").split("\n")
    atoms, rules, items = 0, [], []
    whole = len(lines) > 1 and lines[-1] == ""
    for number, line in enumerate(lines[:-1] if whole else lines, 1):
        said = line_in(line, number, items, kind)
        if said is None:
            return number
        if said[0] == "p":
            atoms = said[1]
        elif said[0] == "r":
            rules.append(said[1])
        else:
            items.append(said[1])
    return (atoms, rules, items) if whole else len(lines)


# ---- writing and damaging a text


def spell(lits):
    return "".join(f" {'+' if sign else '-'}{atom}" for atom, sign in lits)


def spell_hints(hints):
    return "".join(f" {kind}{number}" for kind, number in hints)


def text_of(atoms, rules, items, kind):
    """The text of a problem and items of the kind s, steps, or q, questions."""
    lines = [f"p {atoms}"]
    lines += [f"r {lo} {hi}{spell(lits)}" for lo, hi, lits in rules]
    if kind == "s":
        lines += [f"s{spell(clause)} /{spell_hints(hints)}" for clause, hints in items]
    else:
        lines += [f"q{spell(lits)}" for lits in items]
    return "".join(line + "\n" for line in lines).encode("ascii")


def damaged_text(rng, text):
    """A byte taken out, put in or replaced, or the end cut off."""
    place = rng.randrange(len(text))
    byte = rng.choice(b"0123456789+-/rspq \n\r\x00").to_bytes(1, "big")
    what = rng.randrange(4)
    if what == 0:
        return text[:place] + text[place + 1 :]
    if what == 1:
        return text[:place] + byte + text[place:]
    if what == 2:
        return text[:place] + byte + text[place + 1 :]
    return text[:place]
