"""How the scripts of this folder are called: what one does that is given too few words, or asked for help"""
import sys


def want_words(least, text):
    """Says how a script is called and ends it, unless so many words stand behind its name: by the first lines of its own text, up to an
    empty one. The status is 0 for the word --help, and else 2."""
    asked = sys.argv[1:] == ["--help"]
    if asked or len(sys.argv) <= least:
        print(text.strip().split("\n\n")[0], file=sys.stdout if asked else sys.stderr)
        sys.exit(0 if asked else 2)
