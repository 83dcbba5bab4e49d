"""The rules that make a loop: statements are left out while the program still answers the same."""
RULES = {"ColocationLoop": ("colocation", "collocation", "group"), "OrderLoop": ("order", "group")}


def rules_of_loop(program, text, statement, refusal):
    """The statements that make the loop, in the order of the text; the refused one is the last of them."""
    kinds = RULES[refusal[1]]
    rules = [other for other in text.statements if other.kind in kinds and other.first < statement.first]
    left_out = [other for other in text.statements if other.kind in kinds and other.first > statement.first]
    if program.refusal(text.without(left_out)) != refusal:
        left_out = []
    size = max(1, len(rules) // 2)
    while True:
        kept, at = rules, 0
        while at < len(kept):
            shorter = kept[:at] + kept[at + size:]
            dropped = left_out + [rule for rule in rules if rule not in shorter]
            if program.refusal(text.without(dropped)) == refusal:
                kept = shorter
            else:
                at += size
        left_out += [rule for rule in rules if rule not in kept]
        rules = kept
        if size == 1:
            return rules + [statement]
        size = max(1, size // 2)
