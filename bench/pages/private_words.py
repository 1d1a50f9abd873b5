"""The words that a reader outside this project does not know, each with the word to use."""

import re

PRIVATE = tuple((re.compile(pattern, re.I), plain) for pattern, plain in (
    (r"\bparameter sets?\b|\bsets\b(?! (?:the|a|an|it|its|up|out|off|how)\b)|\bset words?\b"
     r"|\b(?:a|the|each|one|every|another|this|that|of|no|any|same|other|true|right|its|whose|which|first|best|such) set\b(?! (?:of|to|up|out)\b)",
     "layout, layout string"),
    (r"\bclass(?:es)?\b", "equivalent layouts"),
    (r"\balike\b", "equivalent, equal"),
    (r"\bsign(?:s|ed)?\b", "rating, rated"),
    (r"\bt(?:ie|ies|ied|ying)\b", "parity relation; linearly dependent; equal score"),
    (r"\bweigh(?:s|ed|t|ts|ted)?\b", "coefficient"),
    (r"\b(?:un)?sound\b", "consistent, inconsistent"),
    (r"\brows? of chunks\b", "stripe"),
    (r"(?<!question )\bmarks?\b", "landmark"),
    (r"(?<!landmark )(?<!volume )(?<!block )(?<!allocation )\bgroups?\b", "landmark group"),
    (r"\bmisfits?\b|\bfits?\b(?! (?:in|into|on|within)\b)", "mismatch, matches"),
    (r"\bparity (?:still )?holds?\b|\bholds? (?:at|in (?:row|all rows))\b", "is consistent"),
    (r"\bloosen\w*", "relaxed"),
    (r"\btrials?\b", "search step"),
    (r"\bcure[sd]?\b", "remedy"),
    (r"\bwindow\b|(?-i:\bwindows\b)", "test range"),
    (r"\bbears?\b|\bborne\b", "tolerate"),
    (r"\blost (?:disk|member)s?\b|\bdisks? (?:is |are |be |may be )?lost\b", "missing disk"),
    (r"\bwhole files?\b|\bfiles? (?:is |are )?whole\b", "intact file"),
    (r"\b(?:is|are|was|be|alone) content\b|\bcontent with\b", "reports no errors"),
    (r"\bparity (?:that )?stays?\b|\bstays? for\b|\bturned (?:by|round)\b", "delayed parity; rotated"),
    (r"\btorn\b", "mirror mismatch"),
    (r"\bforeign\b", "non-member"),
    (r"\btexts? of (?:the )?maps\b", "concatenated mapfiles"),
    (r"(?<!other )(?<!own )(?<!plain )(?<!key )(?<!-bit )(?<!\d )\bwords?\b", "argument, text"),
    (r"\bput(?:s|ting)?\b", "write"),
    (r"(?<!release )\bnotes\b", "stderr"),
    (r"\bthe source\b(?! (?:code|file|files|text|tree|of)\b)", "stdin"),
    (r"\b(?:the|something) outside\b", "I/O"),
    (r"\bfault(?:s|y)?\b", "error, I/O error"),
    (r"\bclauses?\b", "postcondition"),
    (r"\blaws?\b", "lemma"),
    (r"\bpromise[sd]?\b", "guarantee"),
    (r"\bgates?\b", "full test suite"),
    (r"\bhopeful\b", "viable"),
    (r"\bwalk(?:s|ed|ing)?\b", "enumerate"),
    (r"\bwrong bod(?:y|ies)\b", "mutation"),
    (r"\brooms?\b", "temporary directory; space"),
    (r"\balone\b", "only"),
    (r"\bbehind\b(?! an? (?:hardware )?write[- ]blocker)", "after"),
    (r"\bbut for\b", "except"),
    (r"\bof which\b", "whose; or another sentence"),
))

# What the program reraid prints as it is, and other programs read: its words stay.
FIXED = tuple(re.compile(pattern) for pattern in (
    r"^CODE origin CODE fits CODE misfits CODE$",
))
