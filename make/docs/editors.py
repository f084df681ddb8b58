"""Prints in which syntax file for editors the words of scripts aren't those of the definitions, one line for each.

The key words are those of the forms of statements (mdl_syntax) and of the commands of lock scripts (mdl_lock); the modes are those of mdl_key.

Usage, at the top of the repository: python3 make/docs/editors.py
"""

import json
import pathlib
import re

VIM = pathlib.Path("editors/vim/syntax/mdlsim.vim")
CODE = pathlib.Path("editors/vscode/syntaxes/mdlsim.tmLanguage.json")

# A text of the definitions in capitals.
TEXT = re.compile(r'codes "([A-Z_ ]+)"')


def words_of(*files):
    """Returns the words in capitals of files of definitions."""
    return {word for file in files for text in TEXT.findall(pathlib.Path(file).read_text()) for word in text.split()}


def defined():
    """Returns the key words and the modes that the definitions have."""
    key_words = words_of(*sorted(pathlib.Path("crates/mdl_syntax/specs").glob("*.antt")), "crates/mdl_lock/specs/Scripts.antt")
    return {"key words": key_words, "modes": words_of("crates/mdl_key/specs/Modes.antt")}


def of_vim():
    """Returns those of the file for Vim."""
    text = VIM.read_text()
    found = {group: re.findall(rf"^syntax keyword {group} (.*)$", text, re.MULTILINE) for group in ("mdlsimKeyword", "mdlsimMode")}
    return {"key words": set(" ".join(found["mdlsimKeyword"]).split()), "modes": set(" ".join(found["mdlsimMode"]).split())}


def of_code():
    """Returns those of the file for VS Code."""
    found = {it["name"].split(".")[0]: re.findall(r"[A-Z_]+", it["match"].replace("\\b", "")) for it in json.loads(CODE.read_text())["patterns"]}
    return {"key words": set(found["keyword"]), "modes": set(found["storage"])}


def main():
    """Prints what differs."""
    right = defined()
    for file, found in ((VIM, of_vim()), (CODE, of_code())):
        for kind, words in right.items():
            for word in sorted(words ^ found[kind]):
                print(f"{file}: {kind}: {word} {'is missing' if word in words else 'is in no script'}")


if __name__ == "__main__":
    main()
