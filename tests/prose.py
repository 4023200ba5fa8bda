"""Measures how a page reads: the length of its sentences, and home-made words in place of the field's terms. Code, headings and names in backquotes
do not count. A cell of a table with more than three words does."""
import re

MOST, MEAN = 32, 18  # words of a sentence, and on the mean of a page
CELL = 3  # words of a cell that is a name or a number, and no sentence

# what is written, and what to write; an optional group `fine` is what makes it good English
OURS = [
    (r"moments?", "time"),
    (r"tells?|(?:are|is|was|were|be|been|being) told|told (?:to|by|what|of|that|last|lost)", "report, return, declare"),
    (r"refus(?:e|es|ed|als?|ing)", "reject, fail with, error"),
    (r"silent(?:ly)?", "non-ack-eliciting, empty"),
    (r"behind", "after, following"),
    (r"besides?", "next to, in addition to"),
    (r"stands?(?! (?:for|alone)\b)|standing|stood", "is, is listed"),
    (r"(?:a|the) look|looks? (?:for losses|at a space)|looked at", "loss detection pass, examine"),
    (r"abandon\w*", "retransmit all, declare lost"),
    (r"spell(?:s|ed|ing)?|spelt", "encode, write"),
    (r"that lives?|(?:path|space|id)s? lives?", "is active, exists"),
    (r"but for", "except"),
    (r"hand(?:s|ed) (?:out|in|on|back)|hand (?:out|in|back)", "return, pass"),
    (r"c(?:omes?|ame) (?:to|in)", "is, results in, is received"),
    (r"go(?:es)? out|went out", "is sent"),
    (r"(?:is|are|was|were) said|says? (?:that|what|which|how)|said of", "state, define"),
    (r"anew", "again"),
    (r"such (?:a )?ones?|for such a|so many|so much", "name the thing or the number"),
    (r"rising", "increasing"),
    (r"(?P<fine>at )?least", "smallest, minimum, earliest"),
    (r"the layer above", "the caller"),
    (r"(?:this|one|both|other) ends?", "endpoint"),
    (r"keeps", "guarantees, holds"),
    (r"go(?:es|ne)? over", "iterate over"),
    (r"doubled", "duplicated"),
    (r"the same (?:of|over|as a fact)", "repeat the noun"),
    (r"the words|words? (?:of|by|that|for) (?:promises|contracts|the table|which|this)", "definitions"),
    (r"asked back", "ask to retire"),
    (r"in vain", "name what does not happen"),
    (r"(?P<fine>(?:place|file|point|line|folder|directory|page|table|know|shows?|say) )?where", "if, when (where is for places)"),
]
RULES = [(re.compile(rf"(?<![\w-])(?:{ours})(?![\w-])", re.I), theirs) for ours, theirs in OURS]


def paragraphs(text):
    """Lists of (line number, text): paragraphs, items of lists, and cells of tables."""
    found, is_code = [[]], False
    for number, line in enumerate(text.split("\n"), 1):
        is_fence = line.startswith("```")
        is_code ^= is_fence
        is_indented = line.startswith("    ") and not found[-1]
        if is_code or is_fence or is_indented or not line.strip() or line.startswith(("#", "<!--", "|")):
            cells = line.strip("| ").replace(r"\|", "/").split("|") if line.startswith("|") and not is_code else []
            found += [*([(number, it)] for it in cells if len(it.split()) > CELL), []]
        elif item := re.match(r" *(?:- |\d+\. )(.*)", line):
            found.append([(number, item[1])])
        else:
            found[-1].append((number, line))
    return filter(None, found)


def sentences(text):
    """Each sentence with the number of the line on which it begins."""
    for paragraph in paragraphs(text):
        starts, joined = [], ""
        for number, line in paragraph:
            starts.append((len(joined), number))
            joined += line.strip() + " "
        begin = 0
        for end in [*re.finditer(r"(?<=[.!?])\*{0,2}\s+(?=[A-Z`\[*\"(])", joined), re.search(r"\Z", joined)]:
            yield max(it for it in starts if it[0] <= begin)[1], joined[begin : end.start()].strip()
            begin = end.end()


def plain(sentence):
    """Without names, links, sections of RFCs and names in brackets."""
    text = re.sub(r"`[^`]*`", "X", sentence)
    text = re.sub(r"\[([^\]]*)\]\([^)]*\)", r"\1", text)
    return re.sub(r"\*\*|\(RFC [^)]*\)|\((?:X[,; ]*)+\)", "", text)


def faults(text):
    """What is to be written otherwise: each with its line, and with the sentence."""
    sizes = []
    for number, sentence in sentences(text):
        read = plain(sentence)
        size = len(re.findall(r"[\w'-]+", read))
        if size > 1:
            sizes.append(size)
        if size > MOST:
            yield number, f"{size} words in a sentence, and not at most {MOST}: {sentence}"
        for rule, theirs in RULES:
            for found in rule.finditer(read):
                if not found.groupdict().get("fine"):
                    yield number, f"'{found[0]}' is no word of the field ({theirs}): {sentence}"
    mean = sum(sizes) / max(len(sizes), 1)
    if mean > MEAN:
        yield 1, f"{mean:.1f} words a sentence on the mean, and not at most {MEAN}"
