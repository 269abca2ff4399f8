"""The weighted rows of a refusal for want of potential, as sums, and where the stars that they speak of stand."""


def product(coefficient, star):
    return f"{'' if abs(coefficient) == 1 else f'{abs(coefficient)}*'}x{star}"


def sum_of(coefficients):
    text = ""
    for star, it in enumerate(coefficients, 1):
        if it:
            sign = ("-" if it < 0 else "") if not text else (" - " if it < 0 else " + ")
            text += sign + product(it, star)
    return text or "0"


def sums(answer):
    """Gives the rows of an answer in lines, x1 for star 1 and so on."""
    lines = ["In units of gas, with x1 for star 1 and so on, the contract asks for"]
    for words in answer.lines:
        if words[0] == "gives":
            lines.append(f"  together  0 >= {words[3]}")
        elif words[2:3] == ["row"]:
            lines.append(f"  {words[1]} times  {sum_of([int(it) for it in words[3:-2]])} >= {words[-1]}")
        elif words[2:3] == ["star"]:
            lines.append(f"  {words[1]} times  x{words[3]} >= 0")
    return lines


def stars(answer):
    """Gives the numbers of the stars that the rows of an answer speak of."""
    found = set()
    for words in answer.lines:
        if words[2:3] == ["star"]:
            found.add(int(words[3]))
        elif words[2:3] == ["row"]:
            found |= {star for star, it in enumerate(words[3:-2], 1) if it != "0"}
    return sorted(found)


def star_places(text):
    """Gives the offsets of the stars of a text, in their order."""
    pairs = zip(text.tokens, text.tokens[1:])
    return [star.at for before, star in pairs if before.text == "{" and star.text == "*"]
