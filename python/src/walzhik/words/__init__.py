"""What is told in words, in one place. ``table`` reads words.tsv, which R shares: the sentences, and for each the number, what the
call was given and the conditions under which it is said. ``lists``, ``series``, ``strict``, ``file`` and ``sheet`` find the facts that
conditions and sentences name; nothing here decides whether something is good.
"""
