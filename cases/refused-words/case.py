"""Words that are no command line, and what is told of them. Nothing is read or written then."""

from pathlib import Path

from runs import HEADER, USAGE, Run, table

# The page for people.
HELP = (Path(__file__).parent / "help").read_text()


def refused(name, words, told):
    return Run(name, words, f"{HEADER}\n", "", told + USAGE, 2)


def runs():
    missing = "curp: something is missing at the end\n"
    for words in ([], ["help"], ["-h"], ["--help"]):
        yield Run(f"help: {words}", words, f"{HEADER}\n", "", HELP, 2)
    for line, word in table(Path(__file__).parent / "words", 2):
        told = missing if word == "(end)" else f"curp: this can't stand there: {word}\n"
        yield refused(line or "an empty word", line.split("|"), told)
    # A word that is no text isn't told of.
    long = b"\xf8\x88\x80\x80\x80"
    for words in ([b"\xff"], ["play", b"\xff"], ["make", "--f", b"\xc3"], [b"\xed\xa0\x80", "play"], ["check", long]):
        yield refused(f"no text: {words}", words, "")
    # A terminal would obey a control character.
    for word, shown in (("\x1b[2J", "\\u{1b}[2J"), ("a\tb\n", "a\\u{9}b\\u{a}"), ("\x7f\x80\x9f\xa0", "\\u{7f}\\u{80}\\u{9f}\xa0")):
        yield refused(f"control characters: {shown}", ["play", word], f"curp: this can't stand there: {shown}\n")
    yield refused("the empty word twice", ["", ""], "curp: this can't stand there: \n")
    yield refused("a word of 100,000 letters", ["play", "x" * 100_000], f"curp: this can't stand there: {'x' * 100_000}\n")
    yield refused("100 words", ["make"] * 100, "curp: this can't stand there: make\n")
