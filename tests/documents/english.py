"""A rough screen for English that confused readers of this project. A flagged sentence is a place to look at, not an error."""
import re

# Each construction, and what to write instead.
PATTERNS = {
    "a clause with who, what or whose as its subject: name the actor": r"(?:^|[;:] |, (?:and|but|or|so) )(?:[Ww]ho(?:ever|se)?|[Ww]hat)\b(?![^.]*\?)",
    "is told, tells: reports, prints": r"\b(?:is|are|was|were|be|been) told\b|\btells? (?:of|its|their|how|which|what|where|why|that)\b",
    "says of, is said: describes, states": r"\bsa(?:ys?|id) of\b|\b(?:is|are) said\b",
    "is none, that is no: say it positively": r"\b(?:is|are|be) none\b|\b(?:that|which) is no\b|\bis no [a-z]+\b",
    "but for: except": r"\bbut for\b",
    "anew: again": r"\banew\b",
    "is had: has": r"\b(?:is|are|be) had\b|\bcan't be had\b",
    "stands: is": r"\bstands?\b(?! for\b)",
    "behind: after": r"\bbehind\b",
    "so many: that many": r"\bso many\b",
    "in place of: instead of": r"\bin place of\b",
    "by itself, by themselves: alone": r"\bby (?:itself|themselves)\b",
    "Of the ..: begin with the subject": r"^Of (?:an?|the|its|these|those|them|each|several|one|right|[a-z]+s)\b",
    "goes by, goes for: follows, applies to": r"\bgo(?:es)? (?:by|for|over)\b",
    "makes zero: zeroes": r"\bma(?:kes?|de|king) (?:\w+ ){0,5}zero\b",
    "comes to stand: becomes": r"\bcomes? to (?:an end|stand|be)\b|\bfrom there\b",
    "exactly where: iff": r"\b(?:exactly|just|only) where\b",
    "opens with How, What, Which, Where: a verb or a noun phrase": r"^(?:How|What|Which|Where)\b",
    "nor does: use not .. or": r"\bnor (?:does|do|is|are)\b",
    "wants: needs": r"\bwants?\b",
    "gives back, gives up, lets go of: returns, drops": r"\blet go of\b|\bgiv(?:es|en) (?:back|up)\b",
}
COMPILED = [re.compile(it) for it in PATTERNS.values()]


def sentences(text):
    """Returns the sentences of a Markdown text with at least four words, without code; each table cell ends a sentence."""
    text = re.sub(r"(?s)```.*?```", " ", text)
    for block in re.split(r"\n\s*\n|\n(?=[-*#|]|\d+\.)", text):
        block = re.sub(r"^\s*(?:[-*#>|]+|\d+\.)\s*", "", block.strip())
        for cell in block.split("|"):
            plain = re.sub(r"`[^`]*`", "X", " ".join(cell.split()))
            plain = re.sub(r"\*\*?|\[([^\]]*)\]\([^)]*\)", r"\1", plain)
            for sentence in re.split(r"(?<=[.!?])\s+(?=[A-Z\"'(])", plain):
                if len(re.findall(r"[A-Za-z]{2,}", sentence)) >= 4:
                    yield sentence.strip()


def flagged(text):
    """Returns the flagged sentences of a text, and its number of sentences."""
    found = list(sentences(text))
    return [it for it in found if any(pattern.search(it) for pattern in COMPILED)], len(found)
