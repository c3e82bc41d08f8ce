"""How a text stands in a manual page, and in completions for shells."""


def quoted(text):
    return text.replace("'", "'\\''")


def zsh_text(text):
    return quoted(text.translate({ord(letter): "\\" + letter for letter in "[]\\:"}))


def fish_text(text):
    return text.replace("\\", "\\\\").replace("'", "\\'")


def roff(text):
    """A text as roff writes it letter by letter."""
    for letter, written in (("\\", "\\e"), ("-", "\\-"), ("'", "\\(aq"), ("`", "\\(ga"), ("^", "\\(ha"), ("~", "\\(ti")):
        text = text.replace(letter, written)
    return "\n".join("\\&" + line if line.startswith(".") else line for line in text.split("\n"))


def roff_item(word, text):
    return [".TP", f".B {roff(word)}", roff(text)]


def roff_head(made, name, version, about):
    """The head of a page, up to what stands behind its name."""
    return [f'.\\" {made}', f'.TH {name.upper()} 1 "" "paklour {version}" "User Commands"', ".nh", ".ad l", ".SH NAME",
            roff(f"{name} - {about[0].lower()}{about[1:]}"), ".SH SYNOPSIS", ".nf"]


def roff_others(name, commands):
    """The pages of the other commands, and where docs/ is, which helps name."""
    others = ", ".join(f"{other}(1)" for other in ["paklour", *commands] if other != name)
    return [".SH SEE ALSO", roff(others), ".PP", roff("docs/ is in the folder share/doc/paklour of where this is installed.")]
