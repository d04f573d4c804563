"""What the tools have in common: their help, and how they end at a bad command line."""
import os
import pathlib
import shutil
import signal
import sys


def stop(why):
    """Ends a tool at a bad command line, with one line on standard error and status 2."""
    print(f"{pathlib.Path(sys.argv[0]).name}: {why}", file=sys.stderr)
    sys.exit(2)


def words_of(doc, options=()):
    """The words after the tool's name. -h or --help first among them prints what the tool does, and ends."""
    words = sys.argv[1:]
    if words[:1] in (["-h"], ["--help"]):
        print(doc.strip())
        sys.exit(0)
    if words and words[0].startswith("-") and words[0] not in options:
        stop(f"there is no option {words[0]}")
    return words


def end_with(main, words):
    """Ends a tool with what `main` answers of its words. Where ctrl-C interrupts it, it ends as that does, and tells nothing more."""
    try:
        sys.exit(main(words))
    except KeyboardInterrupt:
        signal.signal(signal.SIGINT, signal.SIG_DFL)
        os.kill(os.getpid(), signal.SIGINT)


def no_words(doc):
    """For a tool that takes none."""
    if words := words_of(doc):
        stop(f"{words[0]}: no word is taken here but --help")


def folder_of(word):
    """The folder of that name."""
    path = pathlib.Path(word)
    return path if path.is_dir() else stop(f"there is no folder {word}")


def player_and_kinds(doc, kinds, player):
    """A player, that one where none is named, and the kinds that are named, or all of them."""
    words = words_of(doc)
    if words and words[0] not in kinds:
        player = pathlib.Path(words.pop(0))
    if not (player.is_file() and os.access(player, os.X_OK)):
        stop(f"there is no player {player}")
    for word in words:
        if word not in kinds:
            stop(f"there is no kind {word}, but these: {', '.join(kinds)}")
    if shutil.which("valgrind") is None:
        stop("valgrind isn't there, which counts instructions")
    return player, words or list(kinds)
