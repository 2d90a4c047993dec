"""The commands of om, as the scripts of this folder try them: the words of the examples in completions/commands.txt."""
import os

TABLE = os.path.join(os.path.dirname(os.path.dirname(os.path.abspath(__file__))), "completions", "commands.txt")
# `decide` searches for a while where nothing ends it sooner
SHORT = {"decide": ["--box=1", "--steps=200", "--pivots=50"]}


def that_read():
    """The words of an example of each command that reads an input, in the order of the table: all but `make`."""
    with open(TABLE) as file:
        blocks = file.read().strip().split("\n\n")
    examples = (block.split("\n")[-1] for block in blocks if not block.startswith("#"))
    commands = (example.split(" < ")[0].split()[1:] for example in examples if " < " in example)
    return [words + SHORT.get(words[0], []) for words in commands]


def on_documents():
    """The same without `check`, which reads a claim."""
    return [words for words in that_read() if words != ["check"]]
