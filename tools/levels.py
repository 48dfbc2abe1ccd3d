"""The level of each token, by document 02's request [3]: how many OpenParens
are open before it. A CloseParen closes the last of them, if any is open."""

from reading import CLOSE_PAREN, OPEN_PAREN


def with_levels(records):
    """Each record with its token's level as the eighth word"""
    open_parens = []
    listed = []
    for record in records:
        listed.append((*record, len(open_parens)))
        if record[0] == OPEN_PAREN:
            open_parens.append(record)
        elif record[0] == CLOSE_PAREN and open_parens:
            open_parens.pop()
    return listed
